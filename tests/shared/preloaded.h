/* What the libraries share that are preloaded into a program. */
static unsigned long number_in(const char *name)
{
    const char *digits = getenv(name);
    unsigned long number = 0;
    while (digits && *digits >= '0' && *digits <= '9')
        number = number * 10 + (unsigned long)(*digits++ - '0');
    return number;
}
