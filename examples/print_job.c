/* Prints the text of a job file: print_job FILE */
#include <stdio.h>

#include "planbench.h"

int main(int argc, char **argv) {
    static uint8_t input[4096];
    static uint8_t output[PLANBENCH_OUTPUT];
    if (argc != 2) {
        fprintf(stderr, "usage: print_job FILE\n");
        return 2;
    }
    FILE *file = fopen(argv[1], "rb");
    if (file == NULL) {
        perror(argv[1]);
        return 1;
    }
    size_t length = fread(input, 1, sizeof input, file);
    fclose(file);
    struct planbench_answer answer = planbench_job(input, length, output, sizeof output);
    if (answer.declined != 0) {
        fprintf(stderr, "declined %u\n", answer.declined);
        return 1;
    }
    fwrite(output, 1, answer.written, stdout);
    return 0;
}
