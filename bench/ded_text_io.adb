pragma Ada_2012;
with Ada.Characters.Handling;
with Ada.Task_Attributes;
with Ada.Task_Identification;
with Ada.Text_IO;
with GNAT.OS_Lib;
package body DED_TEXT_IO is
   type Reader is access Ada.Text_IO.File_Type;
   package Readers is new Ada.Task_Attributes(Reader, null);

   -- The name of the task that calls, and the number that GNAT puts behind it.
   function Own_Name return String is
   begin
      return Ada.Task_Identification.Image(Ada.Task_Identification.Current_Task);
   end Own_Name;

   -- One write for each piece, so that pieces of two tasks do not mix.
   procedure PUT(ITEM : in STRING) is
      Text : constant String := Own_Name & Integer'Image(ITEM'Length) & ASCII.LF & ITEM;
   begin
      if GNAT.OS_Lib.Write(GNAT.OS_Lib.Standout, Text'Address, Text'Length) /= Text'Length then
         raise Program_Error;
      end if;
   end PUT;

   procedure PUT_LINE(ITEM : in STRING) is
   begin
      PUT(ITEM & ASCII.LF);
   end PUT_LINE;

   procedure NEW_LINE is
   begin
      PUT((1 => ASCII.LF));
   end NEW_LINE;

   -- The file of the task that calls, opened at its first reading.
   function Own_Reader return Reader is
      Name : constant String := Ada.Characters.Handling.To_Lower(Own_Name);
      Last : Natural := Name'Last;
   begin
      if Readers.Value = null then
         while Name(Last) /= '_' loop
            Last := Last - 1;
         end loop;
         Readers.Set_Value(new Ada.Text_IO.File_Type);
         Ada.Text_IO.Open(Readers.Value.all, Ada.Text_IO.In_File, "in." & Name(Name'First .. Last - 1));
      end if;
      return Readers.Value;
   end Own_Reader;

   package body INTEGER_IO is
      package Numbers is new Ada.Text_IO.Integer_IO(NUM);

      procedure PUT(ITEM : in NUM) is
         Text : constant String := NUM'Image(ITEM);
      begin
         DED_TEXT_IO.PUT(Text((if ITEM < 0 then Text'First else Text'First + 1) .. Text'Last));
      end PUT;

      procedure GET(ITEM : out NUM) is
      begin
         Numbers.Get(Own_Reader.all, ITEM);
      end GET;
   end INTEGER_IO;
end DED_TEXT_IO;
