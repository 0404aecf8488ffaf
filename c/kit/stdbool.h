#ifndef NTWIN_KIT_STDBOOL_H
#define NTWIN_KIT_STDBOOL_H
#define bool _Bool
#define true 1
#define false 0
#endif
