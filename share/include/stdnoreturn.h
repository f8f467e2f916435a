/* C11 7.23: functions that don't return. */
#ifndef __CRENAME_STDNORETURN_H
#define __CRENAME_STDNORETURN_H

#define noreturn _Noreturn

#endif
