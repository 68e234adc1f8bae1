redo-ifchange hello.c greeting.h
cc -c -o "$3" hello.c
