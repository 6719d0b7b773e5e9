print("pub", "a");
var r = /a/;
