/* The calls that make something and need no point: rules from text, and logs. */
#ifndef MAKERS_H
#define MAKERS_H

#include "week.h"

void step_parse(struct week *w, struct input *in);
void step_worst_log(struct input *in);
void step_simulate(struct input *in);

#endif
