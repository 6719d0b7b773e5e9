var said = [lbl("no", "voter")];
if (read("ballot") === "yes") said[0] = "yes";
print("count", said[0] === "yes" ? "Somebody said yes" : "Nobody said yes");
