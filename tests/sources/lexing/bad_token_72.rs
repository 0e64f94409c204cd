"a\
b"