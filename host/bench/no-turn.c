/* Stands for a call that an older build of the library lacks: it answers 0, which no turn is answered with. It yields to a build that has
   the call. */
#include "baseline.h"

__attribute__((weak)) uint32_t yard_turn(const uint8_t *plan, size_t plan_len, struct yard_lane *roster, size_t lanes, uint8_t *images,
                                         size_t images_len) {
  (void)plan, (void)plan_len, (void)roster, (void)lanes, (void)images, (void)images_len;
  return 0;
}
