/* Damage done to a generated sheet. Rests on sheets.h. */
#ifndef GENERATOR_DAMAGE_H
#define GENERATOR_DAMAGE_H

#include "generator/sheets.h"

/* What the generator knows of the sheet may not hold afterwards. */
void damage_sheet(struct generator *generator);

#endif
