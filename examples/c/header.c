/* Compiled only, as C99 and as C++: the headers stand alone (carts.h in carts_test.c), and the structs have the sizes of the engine's. */
#include "sulyobak_util.h"

#include "carts.h"

typedef char control_is_31_words[sizeof(sulyobak_control) == 31 * 4 ? 1 : -1];
typedef char answer_is_34_words[sizeof(sulyobak_answer) == 34 * 4 ? 1 : -1];
typedef char free_last_is_last[offsetof(sulyobak_control, free_last) == 30 * 4 ? 1 : -1];
typedef char kind_is_first[offsetof(sulyobak_answer, kind) == 0 ? 1 : -1];
typedef char control_is_last[offsetof(sulyobak_answer, control) == 3 * 4 ? 1 : -1];
typedef char van_answer_is_3_words[sizeof(sulyobak_van_answer) == 3 * 4 ? 1 : -1];
typedef char applied_is_last[offsetof(sulyobak_van_answer, applied) == 2 * 4 ? 1 : -1];
typedef char searched_is_3_words[sizeof(carts_searched) == 3 * 4 ? 1 : -1];
typedef char letters_are_last[offsetof(carts_searched, letters) == 2 * 4 ? 1 : -1];
typedef char output_holds_every_read[SULYOBAK_OUTPUT_MOST == SULYOBAK_NUMBERS * SULYOBAK_CART_SIZE ? 1 : -1];
typedef char output_holds_every_message[SULYOBAK_MESSAGE_MOST ==
                                        SULYOBAK_MESSAGE_HEAD + SULYOBAK_OPERATIONS * SULYOBAK_OPERATION_SIZE ? 1 : -1];
typedef char old_file_is_a_mark_and_its_carts[SULYOBAK_OLD_FILE_SIZE == 6 + SULYOBAK_CARTS * (16 + SULYOBAK_OLD_TITLE_MOST) ? 1 : -1];
typedef char library_is_six_copies[SULYOBAK_LIBRARY_SIZE == 6 * SULYOBAK_COPY_SIZE ? 1 : -1];

#define WRITTEN uint8_t *, size_t
#define READ const uint8_t *, size_t

/* Every function, by the type that the header gives it. */
uint32_t (*const of_the_version[])(void) = {sulyobak_version};
sulyobak_answer (*const of_a_setup[])(WRITTEN, WRITTEN, WRITTEN, uint32_t, READ) = {sulyobak_setup};
sulyobak_answer (*const of_a_commit[])(WRITTEN, WRITTEN, WRITTEN, sulyobak_control, uint32_t, READ) = {sulyobak_commit};
sulyobak_answer (*const of_a_preview[])(READ, READ, READ, sulyobak_control, uint32_t, READ) = {sulyobak_preview};
sulyobak_answer (*const of_a_send[])(READ, READ, READ, sulyobak_control, uint32_t) = {sulyobak_send};
sulyobak_answer (*const of_a_refresh[])(WRITTEN, READ, READ, sulyobak_control, uint32_t) = {sulyobak_refresh};
sulyobak_answer (*const of_a_read[])(READ, READ, WRITTEN, sulyobak_control, uint32_t, READ, WRITTEN) = {sulyobak_read};
sulyobak_answer (*const of_a_collect[])(READ, READ, WRITTEN, sulyobak_control, uint32_t, WRITTEN) = {sulyobak_collect};
sulyobak_answer (*const of_a_forward[])(READ, READ, WRITTEN, sulyobak_control, uint32_t, READ, WRITTEN) = {sulyobak_forward};
sulyobak_answer (*const of_a_move[])(READ, READ, READ, sulyobak_control, uint32_t, uint32_t) = {sulyobak_move};
sulyobak_answer (*const of_the_layout[])(READ, READ, READ, sulyobak_control) = {sulyobak_layout};
sulyobak_answer (*const of_a_load[])(READ, READ, READ, sulyobak_control) = {sulyobak_load};
sulyobak_answer (*const of_a_retire[])(WRITTEN, WRITTEN, READ, sulyobak_control) = {sulyobak_retire};
sulyobak_answer (*const of_a_van_write[])(READ, READ, READ, sulyobak_control, uint32_t, WRITTEN) = {sulyobak_van_write};
sulyobak_van_answer (*const of_a_van_receive[])(WRITTEN, uint32_t, READ) = {sulyobak_van_receive};
sulyobak_answer (*const of_a_conversion[])(READ, WRITTEN) = {sulyobak_from_old, sulyobak_to_old};
bool (*const of_a_scan[])(READ) = {carts_all_zero, carts_is_copy, carts_all_operations};
carts_searched (*const of_a_search[])(READ, READ) = {carts_search};
