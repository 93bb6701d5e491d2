/* The compiled program has checks in place of proofs. A check that fails is an illegal instruction: it ends the program here,
   with a message, before any wrong answer. The declarations are those of the C library. */

enum { STANDARD_ERROR = 2, ILLEGAL_INSTRUCTION = 4, STATUS = 2 };

typedef void handler(int);
handler *signal(int number, handler *called);
long write(int file, const void *bytes, unsigned long count);
_Noreturn void _exit(int status);

static const char message[] = "tsearch: a check failed, so the program ends here; this is a bug (the program is compiled with checks, and not proved)\n";

static void end_with_message(int number)
{
    (void)number;
    if (write(STANDARD_ERROR, message, sizeof message - 1) < 0)
        _exit(STATUS);
    _exit(STATUS);
}

__attribute__((constructor)) static void take_failed_checks(void)
{
    signal(ILLEGAL_INSTRUCTION, end_with_message);
}
