/* The subcommands. Each takes its words, of which the first is its own name, and gives the exit status. */
#ifndef COMMANDS_H
#define COMMANDS_H

#include "say.h"

enum status command_decide(int count, char **words);
enum status command_log(int count, char **words);
enum status command_measure(int count, char **words);
enum status command_demo(int count, char **words);

/* Writes the help. */
enum status command_help(void);

#endif
