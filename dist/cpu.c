// SPDX-License-Identifier: Apache-2.0
/* deerlapse_cpu_supported as a function of libdeerlapse.a and libdeerlapse.so, for callers without deerlapse.h, such as Python's
 * ctypes. It is compiled with DEERLAPSE_X86_64_LEVEL as the level of the assembly beside it. */
#include "deerlapse.h"

#undef deerlapse_cpu_supported

bool deerlapse_cpu_supported(void) {
    return deerlapse_cpu_supported_inline();
}
