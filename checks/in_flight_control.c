/* The control of checks/in_flight. Each function but `is_good` does one thing that no call of a channel may do, and the check must find it. */
#include <stdlib.h>

static int total;
static int (*chosen)(int);

__attribute__((noinline)) int reaches_itself(int count) {
    volatile char some[64] = {0};
    some[count & 63] = 1;
    return count < 2 ? count : reaches_itself(count - 1) + reaches_itself(count - 2) + some[1];
}

__attribute__((noinline)) int writes_a_variable(int count) {
    total += count;
    return count;
}

__attribute__((noinline)) double has_floating_point(double value) {
    return value * 2.5;
}

__attribute__((noinline)) int has_a_lock(int *count) {
    return __sync_fetch_and_add(count, 1);
}

__attribute__((noinline)) int calls_what_is_not_named(int count) {
    return chosen(count) + 1;
}

__attribute__((noinline)) void *asks_for_memory(size_t count) {
    return calloc(count, 2);
}

__attribute__((noinline)) long makes_a_system_call(long number) {
    __asm__ volatile("syscall" : "+a"(number) : : "rcx", "r11", "memory");
    return number;
}

__attribute__((noinline)) int is_good(const int *values, int count) {
    int sum = 0;
    for (int i = 0; i < count; i++) {
        sum ^= values[i];
    }
    return sum;
}

int main(int count, char **words) {
    int values[2] = {count, words[0][0]};
    void *block = asks_for_memory((size_t)count);
    chosen = writes_a_variable;
    const int sum = reaches_itself(count) + calls_what_is_not_named(count) + has_a_lock(&count) + (int)has_floating_point(count);
    free(block);
    if (count < 0) {
        return (int)makes_a_system_call(count);
    }
    return (sum + is_good(values, 2) + total) & 1;
}
