/* A plain interpreter of the machine, with all its checks and stop numbers: the measure for the proved one.
 *
 *     plain IMAGE [BUDGET] < input
 *
 * IMAGE holds the first stack word and then every memory word, each as two bytes, high byte first. The run's bytes go to
 * standard output; the stop, the count and the seconds of the run alone to standard error. */

#include <inttypes.h>
#include <stdint.h>
#include <stdio.h>
#include <stdlib.h>
#include <time.h>

enum { MEMORY_LENGTH = 24, FINISHED = 30, BUDGET, ADDRESS, ZERO_DIVISOR, UNKNOWN_ACT, OUTPUT_FULL };
enum { MOST_WORDS = 32768, INPUT_ROOM = 1 << 24, OUTPUT_ROOM = 1 << 24 };

static uint16_t memory[MOST_WORDS + 1];
static uint8_t input[INPUT_ROOM];
static uint8_t output[OUTPUT_ROOM];

typedef struct {
    int stop;
    uint64_t count;
    size_t taken, written;
    uint16_t a, b, c, p, g;
} Ran;

static uint16_t truth(int holds) { return holds ? 65535 : 0; }

/* Registers change only once an instruction is known to be done, so that a stop leaves them as before it. */
static Ran run(size_t memory_len, uint16_t first, size_t input_len, size_t output_len, uint64_t budget)
{
    uint16_t a = 0, b = 0, c = 0, p = first, g = 16;
    uint64_t count = 0;
    size_t taken = 0, written = 0;
    int stop = MEMORY_LENGTH;

    if (memory_len < 512 || memory_len > MOST_WORDS)
        goto stopped;
    for (;;) {
        stop = BUDGET;
        if (count == budget)
            goto stopped;
        stop = ADDRESS;
        if (c >= memory_len)
            goto stopped;
        uint16_t word = memory[c];
        uint16_t next = (uint16_t)(c + 1);
        uint16_t operand = word & 511;
        if (word & 512) {
            if (next >= memory_len)
                goto stopped;
            operand = memory[next++];
        }
        if (word & 2048)
            operand = (uint16_t)(operand + p);
        if (word & 1024)
            operand = (uint16_t)(operand + g);
        if (word & 4096) {
            if (operand >= memory_len)
                goto stopped;
            operand = memory[operand];
        }
        switch (word >> 13) {
        case 0:
            b = a;
            a = operand;
            break;
        case 1:
            if (operand >= memory_len)
                goto stopped;
            memory[operand] = a;
            break;
        case 2:
            a = (uint16_t)(a + operand);
            break;
        case 3:
            next = operand;
            break;
        case 4:
            if (a != 0)
                next = operand;
            break;
        case 5:
            if (a == 0)
                next = operand;
            break;
        case 6: {
            uint16_t frame = (uint16_t)(p + operand);
            uint16_t link = (uint16_t)(frame + 1);
            if (frame >= memory_len || link >= memory_len)
                goto stopped;
            memory[frame] = p;
            memory[link] = next;
            p = frame;
            next = a;
            break;
        }
        default: {
            int16_t left = (int16_t)b, right = (int16_t)a;
            switch (operand) {
            case 1:
                if (a >= memory_len)
                    goto stopped;
                a = memory[a];
                break;
            case 2: a = (uint16_t)-a; break;
            case 3: a = (uint16_t)~a; break;
            case 4: {
                uint16_t link = (uint16_t)(p + 1);
                if (link >= memory_len || p >= memory_len)
                    goto stopped;
                next = memory[link];
                p = memory[p];
                break;
            }
            case 5: a = (uint16_t)((uint32_t)b * a); break;
            case 6:
            case 7:
                stop = ZERO_DIVISOR;
                if (a == 0)
                    goto stopped;
                /* In 32 bits -32768 / -1 does not overflow; the cast cuts it to -32768. */
                a = (uint16_t)(operand == 6 ? (int32_t)left / right : (int32_t)left % right);
                break;
            case 8: a = (uint16_t)(b + a); break;
            case 9: a = (uint16_t)(b - a); break;
            case 10: a = truth(b == a); break;
            case 11: a = truth(b != a); break;
            case 12: a = truth(left < right); break;
            case 13: a = truth(left >= right); break;
            case 14: a = truth(left > right); break;
            case 15: a = truth(left <= right); break;
            case 16: a = a < 16 ? (uint16_t)((uint32_t)b << a) : 0; break;
            case 17: a = a < 16 ? (uint16_t)(b >> a) : 0; break;
            case 18: a = b & a; break;
            case 19: a = b | a; break;
            case 22:
                c = next;
                count++;
                stop = FINISHED;
                goto stopped;
            case 23: {
                uint32_t table = next;
                if (table + 1 >= memory_len)
                    goto stopped;
                uint32_t pairs = memory[table];
                next = memory[table + 1];
                uint32_t pair = table + 2;
                for (; pairs > 0; pairs--, pair += 2) {
                    if (pair >= memory_len)
                        goto stopped;
                    if (memory[pair] == a) {
                        if (pair + 1 >= memory_len)
                            goto stopped;
                        next = memory[pair + 1];
                        break;
                    }
                }
                break;
            }
            case 27: a = taken < input_len ? input[taken++] : 65535; break;
            case 28:
                stop = OUTPUT_FULL;
                if (written >= output_len)
                    goto stopped;
                output[written++] = (uint8_t)a;
                break;
            default:
                stop = UNKNOWN_ACT;
                goto stopped;
            }
        }
        }
        c = next;
        count++;
    }
stopped:
    return (Ran){ stop, count, taken, written, a, b, c, p, g };
}

int main(int argc, char **argv)
{
    if (argc < 2 || argc > 3) {
        fprintf(stderr, "usage: plain IMAGE [BUDGET] < input\n");
        return 2;
    }
    FILE *file = fopen(argv[1], "rb");
    if (file == NULL) {
        perror(argv[1]);
        return 2;
    }
    size_t words = 0;
    uint16_t first = 0;
    int high, low;
    while (words <= MOST_WORDS + 1 && (high = getc(file)) != EOF && (low = getc(file)) != EOF) {
        uint16_t word = (uint16_t)(high * 256 + low);
        if (words == 0)
            first = word;
        else
            memory[words - 1] = word;
        words++;
    }
    fclose(file);
    uint64_t budget = argc == 3 ? strtoull(argv[2], NULL, 10) : 1000000000;
    size_t input_len = fread(input, 1, INPUT_ROOM, stdin);

    struct timespec from, to;
    clock_gettime(CLOCK_MONOTONIC, &from);
    Ran ran = run(words == 0 ? 0 : words - 1, first, input_len, OUTPUT_ROOM, budget);
    clock_gettime(CLOCK_MONOTONIC, &to);

    fwrite(output, 1, ran.written, stdout);
    double seconds = (double)(to.tv_sec - from.tv_sec) + (double)(to.tv_nsec - from.tv_nsec) / 1e9;
    fprintf(stderr, "stop %d, count %" PRIu64 ", taken %zu, written %zu, %.3f s\n", ran.stop, ran.count, ran.taken,
            ran.written, seconds);
    return ran.stop == FINISHED ? 0 : 1;
}
