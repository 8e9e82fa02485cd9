/* Compares the C library with a model of its header, on generated values and frames:
 *
 *     judge worked FOLDER         makes the worked calls; it runs at the top of the repository, and the folder has the
 *                                 lines `host` of tests/frames/written.py
 *     judge SECONDS SEED          runs cases for this time
 *     judge case SEED NUMBER      runs one case
 *     judge capture FILE ROWS SEED COUNT
 *                                 writes COUNT valid frames, and what the library stores of them
 *     judge recorded FILE ROWS    writes the ICMP messages among the frames of the standard input, and the same
 *
 * The status is 1 at the first difference or crash, which is printed with the case. */
#include <stdio.h>
#include <stdlib.h>
#include <string.h>
#include <time.h>
#include <unistd.h>
#include "judge.h"

static void run_case(uint64_t seed, uint64_t number)
{
    static void (*const cases[])(void) = {
        read_whole, rebuild_frame, answer_frame, emit_frame, wrap_frame, emit_layer, reply_frame, read_options,
        parse_text, print_text, sum_bytes, classify_addr, name_number, choose_route, answer_frame, forward_frame,
        emit_icmp, find_ndisc, ask_groups, emit_error, step_ipv6_headers, edit_frame, print_frame, fragment_frame,
    };
    const size_t count = sizeof cases / sizeof *cases;
    begin_case(seed, number);
    if (number % 128 == 127)
        read_cut();
    else if (number % 128 == 31)
        read_links();
    else if (number % 128 == 63)
        translate_frames();
    else if (number % 128 == 95)
        reassemble_frames();
    else if (number % 128 == 111)
        connect_ends();
    else
        cases[number % count]();
}

static double now(void)
{
    struct timespec time;
    clock_gettime(CLOCK_MONOTONIC, &time);
    return (double)time.tv_sec + (double)time.tv_nsec / 1e9;
}

static void run_cases(double seconds, uint64_t seed)
{
    double end = now() + seconds;
    for (uint64_t number = 0; now() < end; number += 64)
        for (uint64_t i = 0; i < 64; i++)
            run_case(seed, number + i);
    print_counts();
}

int main(int argc, char **argv)
{
    catch_crashes();
    if (argc == 3 && strcmp(argv[1], "worked") == 0) {
        make_worked_calls(argv[2]);
        print_counts();
    } else if (argc == 3) {
        alarm((unsigned)atoi(argv[1]) + 60);
        run_cases(atof(argv[1]), strtoull(argv[2], 0, 10));
    } else if (argc == 4 && strcmp(argv[1], "case") == 0) {
        run_case(strtoull(argv[2], 0, 10), strtoull(argv[3], 0, 10));
    } else if (argc == 6 && strcmp(argv[1], "capture") == 0) {
        begin_case(strtoull(argv[4], 0, 10), 0);
        write_capture(argv[2], argv[3], strtoul(argv[5], 0, 10));
    } else if (argc == 4 && strcmp(argv[1], "recorded") == 0) {
        write_recorded(argv[2], argv[3]);
    } else {
        fprintf(stderr, "usage: judge SECONDS SEED\n");
        return 2;
    }
    return 0;
}
