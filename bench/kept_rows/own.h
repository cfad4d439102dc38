/* Walks of the own process with kept rows, compared with glibc's backtrace and with steps of a cursor. */
#ifndef OWN_H
#define OWN_H
#ifdef __cplusplus
extern "C" {
#endif
/* Prepares: finds the modules, and sets the handlers of signals. */
void own_start(void);
/* From begin to end, each instruction that this thread executes is a stop, at which the stack is walked. */
void own_begin(void);
void own_end(void);
/* Walks the stack of the caller. For gdb, which breaks at own_stopped and compares its frames. */
void own_compare(void);
/* Prints what was compared; returns 1 if an address differs. */
int own_report(const char *name);
#ifdef __cplusplus
}
#endif
#endif
