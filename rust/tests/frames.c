/* Prints how many frames libsndfile sees in a file; with a second argument it also writes the audio,
   16 bits a sample, to that file. */
#include <sndfile.h>
#include <stdio.h>

int main(int argc, char **argv)
{
    SF_INFO info = {0};
    SNDFILE *in = argc > 1 ? sf_open(argv[1], SFM_READ, &info) : NULL;
    if (!in) {
        fprintf(stderr, "%s\n", sf_strerror(NULL));
        return 1;
    }
    printf("%lld\n", (long long)info.frames);
    if (argc > 2) {
        FILE *out = fopen(argv[2], "wb");
        short frame[64];
        if (!out || info.channels > 64)
            return 1;
        while (sf_readf_short(in, frame, 1) == 1)
            fwrite(frame, sizeof frame[0], (size_t)info.channels, out);
        if (fclose(out) != 0)
            return 1;
    }
    sf_close(in);
    return 0;
}
