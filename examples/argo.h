/* The exported calls, for C and C++ (docs/INTERFACE.md). A slice is a pointer and then its length in words, that of transfers in records;
   the slices that a call is lent must not overlap. A call of type uint32_t answers 0 where it is carried out, else the number of its
   refusal; a call of type uint64_t answers number * 2^32 + value, the value being 0 beside a refusal. A refused call leaves every lent
   word as it was. A sheet of 0 words stands for an idle network of 2 by 2 nodes with a memory word each, without circuits, and one
   schedule of period 9. */
#ifndef ARGO_H
#define ARGO_H

#include <stddef.h>
#include <stdint.h>

#ifdef __cplusplus
extern "C" {
#endif

/* The length in words that a state must have at least. */
uint32_t argo_state_words(void);

/* Judges a sheet: 0, or the first of the numbers 1 to 11 and then 26 that applies. */
uint32_t argo_verdict(const uint32_t *sheet, size_t sheet_words);

/* The entries of a schedule in a sheet that keeps 1 to 11, also where 26 refuses it. Field 0: the place of their first word in the sheet; 1: how many words they have. */
uint64_t argo_entries(const uint32_t *sheet, size_t sheet_words, uint32_t schedule, uint32_t field);

/* Loads a sheet into a state, for a memory of columns * rows * M words, node by node: cycle 0, period 0, schedule 0. The rows are the
   sheet's second word, less 256 where the vertical links are long. */
uint32_t argo_load(const uint32_t *sheet, size_t sheet_words, uint32_t *state, size_t state_words, const uint32_t *memory,
                   size_t memory_words);

/* Starts a transfer of a circuit: count words from the source's address read to the destination's address write; kind 0 or 2. 17: words of
   the circuit's last transfer were not sent or have not landed; it is free directly after the cycle in which the last word lands. */
uint32_t argo_start(uint32_t *state, size_t state_words, uint32_t circuit, uint32_t read, uint32_t write, uint32_t count, uint32_t kind);

/* A transfer of a list: its circuit, where its words are read and written, how many they are, and their kind. */
struct argo_transfer {
    uint32_t circuit, read, write, count, kind;
};

/* Starts a list of up to 64 transfers, each as argo_start would after those before it, and writes an answer word for each: 0 where it was
   started, else 15, 16 or 17. Answer words behind the list stay as they were. The state is tested once for all of them (12, 13); 21: the
   list is longer than 64, or there are fewer answer words than transfers, and nothing is started and no answer word written.
   transfer_count counts records of five words, not words. */
uint32_t argo_start_all(uint32_t *state, size_t state_words, const struct argo_transfer *transfers, size_t transfer_count,
                        uint32_t *answers, size_t answer_words);

/* The same with word i of five lists for transfer i, for hosts without structs; 21 also where the five are not equally long. */
uint32_t argo_start_lists(uint32_t *state, size_t state_words, const uint32_t *circuits, size_t circuit_words, const uint32_t *reads,
                          size_t read_words, const uint32_t *writes, size_t write_words, const uint32_t *counts, size_t count_words,
                          const uint32_t *kinds, size_t kind_words, uint32_t *answers, size_t answer_words);

/* Stores a word at a node's address. */
uint32_t argo_store(const uint32_t *state, size_t state_words, uint32_t *memory, size_t memory_words, uint32_t node, uint32_t address,
                    uint32_t word);

/* The word at a node's address. */
uint64_t argo_fetch(const uint32_t *state, size_t state_words, const uint32_t *memory, size_t memory_words, uint32_t node,
                    uint32_t address);

/* The words of a circuit's transfer that have not left yet. At 0 they have all left, and the circuit is free when they have landed too. */
uint64_t argo_words_left(const uint32_t *state, size_t state_words, uint32_t circuit);

/* The present period's number. */
uint64_t argo_period_number(const uint32_t *state, size_t state_words);

/* What landed at a node in the last cycle. Field 0: 1 where something did, else 0; 1: its kind; 2: its address; 3: its word. */
uint64_t argo_landed(const uint32_t *state, size_t state_words, uint32_t node, uint32_t field);

/* Orders a schedule for a period, at least three periods ahead. */
uint32_t argo_order(uint32_t *state, size_t state_words, uint32_t schedule, uint32_t period);

/* The schedule of a minute of the week (0 to 10,079) by a timetable: three words for each of up to 64 windows, sorted by start: the starting
   minute, the length in minutes and the schedule (0 to 7); schedule 0 outside all of them, and always where there are no words. It needs
   no sheet and no state. Field 0: the schedule; 1: 1 where it ever changes, else 0; 2: the next minute of the week at which it differs, 0
   where it never does. 31: the words are no timetable; 32: the minute is 10,080 or more. */
uint64_t argo_hours(const uint32_t *timetable, size_t timetable_words, uint32_t minute, uint32_t field);

/* Carries out one clock cycle. */
uint32_t argo_cycle(uint32_t *state, size_t state_words, uint32_t *memory, size_t memory_words);

#ifdef __cplusplus
}
#endif

#endif
