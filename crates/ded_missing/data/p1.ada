procedure P1 is
   task B is
      entry PUT;
   end B;
   task body B is
   begin
      accept PUT;
   end B;
begin
   B.PUT;
end P1;
