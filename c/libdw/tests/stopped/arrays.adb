--  Ranges, packed arrays, arrays by an enumeration, and procedures within procedures. It stops at the one place that
--  this names: stop(1).
procedure Arrays is
   type Bits is array (1 .. 20) of Boolean;
   pragma Pack (Bits);
   type Color is (Red, Green, Blue);
   for Color use (Red => 1, Green => 5, Blue => 9);
   type By_Color is array (Color) of Integer;
   type Small is range 0 .. 100;
   type Modular is mod 17;
   type Three is mod 8;
   type Table is array (1 .. 3, 1 .. 5) of Three;
   pragma Pack (Table);
   type Whole is record
      A : Natural;
      B : Small;
      C : Modular;
      D : Bits;
      E : By_Color;
   end record;

   procedure Trap;
   pragma Import (Intrinsic, Trap, "__builtin_trap");

   procedure Show (N : Natural) is
      Packed  : Bits := (1 | 3 | 20 => True, others => False);
      Colors  : By_Color := (1, 2, 3);
      Number  : Small := 7;
      Wrapped : Modular := 9;
      Held    : Whole := (N, 3, 4, (2 => True, others => False), (4, 5, 6));
      Square  : Table := (1 => (1, 2, 3, 4, 5), others => (others => 6));
      One     : Color := Blue;
      Count   : Positive := 4;

      procedure Inner (Given : Integer) is
         Local : Integer := Given + N;

         procedure Innermost is
            Last : Positive := Local + Count;
         begin
            Number := 8;
            Held.A := Last;
            Trap;
         end Innermost;
      begin
         Wrapped := 3;
         Innermost;
         Local := Held.A;
      end Inner;
   begin
      Packed (7) := True;
      Colors (Green) := 22;
      Square (2, 2) := 1;
      One := Green;
      Count := Count + N;
      Inner (N + 2);
   end Show;
begin
   Show (5);
end Arrays;
