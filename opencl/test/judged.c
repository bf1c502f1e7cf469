// judged FILE [OPTIONS]: what the driver makes of a source, as it is judged. Where it can't be built, the log, with
// status 1. The device is that of CLSIM_SERVE.
#include "../source.h"
#include <stdio.h>
#include <stdlib.h>

int main(int count, char **words) {
    FILE *file = count == 2 || count == 3 ? fopen(words[1], "rb") : NULL;
    if (!file) {
        fprintf(stderr, count == 2 || count == 3 ? "judged: cannot read %s\n" : "judged: FILE [OPTIONS]\n",
                count > 1 ? words[1] : "");
        return 2;
    }
    static char source[1 << 20];
    size_t n = fread(source, 1, sizeof source - 1, file);
    fclose(file);
    source[n] = 0;
    prepared p;
    session *device = session_open();
    if (!device) {
        fputs("judged: no device\n", stderr);
        return 2;
    }
    preparation done = prepare_source(&p, source, count == 3 ? words[2] : "", device);
    fputs(done == PREPARED ? p.text : done == NOT_PREPARED ? p.log : "out of memory\n", stdout);
    free_prepared(&p);
    session_close(device);
    return done == PREPARED ? 0 : 1;
}
