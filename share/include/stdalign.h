/* C11 7.15: alignment. */
#ifndef __CRENAME_STDALIGN_H
#define __CRENAME_STDALIGN_H

#define alignas _Alignas
#define alignof _Alignof
#define __alignas_is_defined 1
#define __alignof_is_defined 1

#endif
