--  A record whose size depends on components of its own, as the bounds of an array within it do. It stops at one place:
--  stop(1).
procedure Variants is
   type Numbers is array (Integer range <>) of Integer;
   type Whole (First, Count : Integer) is record
      Items : Numbers (First .. Count);
      Last  : Integer;
   end record;

   procedure Trap;
   pragma Import (Intrinsic, Trap, "__builtin_trap");

   procedure Show (Given : in out Whole) is
   begin
      Given.Last := 9;
      Trap;
      Given.Last := Given.Items (Given.First);
   end Show;

   Object : Whole (2, 5);
begin
   Object.Items := (others => 7);
   Show (Object);
end Variants;
