-- What stands for TEXT_IO where bench/gnat asks which task has written what: each piece goes out behind the name of its task.
with TEXT_IO;
package DED_TEXT_IO is
   END_ERROR : exception renames TEXT_IO.END_ERROR;
   procedure PUT(ITEM : in STRING);
   procedure PUT_LINE(ITEM : in STRING);
   procedure NEW_LINE;
   generic
      type NUM is range <>;
   package INTEGER_IO is
      -- No blanks stand before the number.
      procedure PUT(ITEM : in NUM);
      -- A task reads the numbers of the file named in. and its name, in lower case.
      procedure GET(ITEM : out NUM);
   end INTEGER_IO;
end DED_TEXT_IO;
