--  Records whose components depend on others of their own: the bounds of an array, and which components there are.
procedure Objects is
   type Numbers is array (Integer range <>) of Integer;
   type Whole (First, Size : Integer) is record
      Data : Numbers (First .. Size);
      Last : Integer;
   end record;
   type Color is (Red, Green, Blue);
   type Choice (Kind : Color; Number : Integer) is record
      case Kind is
         when Red => Low : Integer;
         when others =>
            case Number is
               when -3 .. -1 | 7 => Middle : Short_Integer;
               when others => High : Float;
            end case;
      end case;
   end record;

   procedure Trap;
   pragma Import (Intrinsic, Trap, "__builtin_trap");

   procedure Show (Given : in out Whole; First, Second, Third : in out Choice) is
   begin
      Given.Last := 9;
      Trap;
      Given.Last := Given.Data (Given.First);
      First.Low := Integer (Second.Middle) + Integer (Third.High);
   end Show;

   Object : Whole (2, 5);
   First  : Choice := (Red, 4, 11);
   Second : Choice := (Green, -2, -12);
   Third  : Choice := (Blue, 6, 1.5);
begin
   Object.Data := (others => 7);
   Show (Object, First, Second, Third);
end Objects;
