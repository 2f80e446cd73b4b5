-- The same in Ada: arguments printed from a task, and their number as the status.
with Ada.Command_Line;
with Ada.Text_IO;

procedure Arguments is
   task Printer;

   task body Printer is
   begin
      for I in 1 .. Ada.Command_Line.Argument_Count loop
         Ada.Text_IO.Put_Line (Integer'Image (I) & " <" & Ada.Command_Line.Argument (I) & ">");
      end loop;
   end Printer;
begin
   Ada.Command_Line.Set_Exit_Status (Ada.Command_Line.Exit_Status (Ada.Command_Line.Argument_Count));
end Arguments;
