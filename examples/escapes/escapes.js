// Ways to write a string, with comments between.
print("pub",
      'it\'s' + /* a tab */ "\t" + "\x41\u0042\0");
print("pub", "a\nb\\c\uD800"); pr\u0069nt("pub", "one \
line");
