/* The test of the C entries: see test.h. */
#include "test.h"

#include "lent.h"

int main(void)
{
    lent_open();
    for (enum way way = BEFORE_PAGE; way <= BEHIND_PAGE; way++) {
        lent_by(way);
        test_tidy_try();
        test_narrow_place();
        test_list();
    }
    test_tidy_try_once();
    test_narrow_place_once();
    test_list_once();
    return count_end();
}
