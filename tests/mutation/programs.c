/* All that is built of the sources, in one program: which part runs is told by the name that it is started under, as strict, survey,
   store, unstore, batch, library (tests/c/library.c) or fuzz (tests/c/fuzz.c). tests/mutants links it with a changed reader. There are no headers. */
int rattle_main(void);
int library_main(void);
int fuzz_main(int, char **);

int main(int count, char **words)
{
    const char *name = words[0];
    for (const char *at = name; *at; at++)
        if (*at == '/') name = at + 1;
    if (name[0] == 'l') return library_main();
    if (name[0] == 'f') return fuzz_main(count, words);
    return rattle_main();
}
