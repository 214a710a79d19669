with TEXT_IO; use TEXT_IO;
procedure BANK is
   BALANCE : INTEGER := 0;
   task ACCOUNT is
      entry READ(AMOUNT : out INTEGER);
      entry ADD(AMOUNT : in INTEGER);
   end ACCOUNT;
   task ALICE is
      entry PAID;
   end ALICE;
   task BOB is
      entry PAID;
   end BOB;
   task body ACCOUNT is
      HELD : INTEGER := 100;
   begin
      loop
         select
            accept READ(AMOUNT : out INTEGER) do
               AMOUNT := HELD;
            end READ;
         or
            accept ADD(AMOUNT : in INTEGER) do
               HELD := HELD + AMOUNT;
            end ADD;
         or
            terminate;
         end select;
      end loop;
   end ACCOUNT;
   task body ALICE is
   begin
      ACCOUNT.ADD(10);
      accept PAID;
   end ALICE;
   task body BOB is
   begin
      delay 0.1;
      ACCOUNT.ADD(20);
      accept PAID;
   end BOB;
begin
   loop
      select
         BOB.PAID;
         exit;
      or
         delay 1.0;
         PUT_LINE("WAITING");
      end select;
   end loop;
   ALICE.PAID;
   ACCOUNT.READ(BALANCE);
   PUT_LINE("BALANCE" & INTEGER'IMAGE(BALANCE));
end BANK;
