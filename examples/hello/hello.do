redo-ifchange hello.o
cc -o "$3" hello.o
