/* Stands for a call that an older build of the library lacks: it answers 0, which no list is answered with. It yields to a build that has
   the call. */
#include "baseline.h"

__attribute__((weak)) uint32_t yard_list(const uint8_t *plan, size_t plan_len, uint8_t *image, size_t image_len, const uint8_t *list,
                                         size_t list_len) {
  (void)plan, (void)plan_len, (void)image, (void)image_len, (void)list, (void)list_len;
  return 0;
}
