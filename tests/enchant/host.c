/* Asks Enchant as an editor does, in lines: `TAG`: whether there is a dictionary, and the error; then what its words are answered. See tests/enchant.sh. */
#include <enchant-provider.h>
#include <stdio.h>
#include <string.h>

static void ask(EnchantDict *dict, const char *word) { printf(" %s %d", word, enchant_dict_check(dict, word, (ssize_t)strlen(word))); }

int main(int count, char **tags) {
    EnchantBroker *broker = enchant_broker_init();
    for (int i = 1; i < count; i++) {
        EnchantDict *dict = enchant_broker_request_dict(broker, tags[i]);
        const char *error = enchant_broker_get_error(broker);
        size_t suggestions = 0;
        if (!dict) {
            printf("%s: %s\n", tags[i], error ? error : "there is none");
            continue;
        }
        printf("%s:", tags[i]);
        ask(dict, "reorders");
        ask(dict, "citys");
        printf(" extra %s at", enchant_dict_get_extra_word_characters(dict));
        for (size_t place = 0; place < 3; place++) {
            const char *sign = place ? "," : " ";
            printf("%s", sign);
            for (const uint32_t *c = (const uint32_t[]){'a', '\'', 0x2019, '-', '.', '7', '\n', 0xe9, 0x301, 0x110000, 0}; *c; c++)
                printf("%d", enchant_dict_is_word_character(dict, *c, place));
        }
        /* A word with a byte that is not UTF-8, as no host gives it: Enchant itself refuses it, so the provider is asked. */
        printf(" bytes %d", dict->check(dict, "fo\xff", 3));
        ask(dict, "qat");
        enchant_dict_add_to_session(dict, "qat", 3);
        ask(dict, "qat");
        ask(dict, "Qat");
        /* What personal lists take for signs is no more than a word here. */
        enchant_dict_add_to_session(dict, "*read", 5);
        enchant_dict_add_to_session(dict, "dog/city", 8);
        ask(dict, "read");
        ask(dict, "dogs");
        enchant_dict_remove_from_session(dict, "qat", 3);
        ask(dict, "qat");
        char **list = enchant_dict_suggest(dict, "citys", 5, &suggestions);
        printf(" suggestions %zu\n", suggestions);
        if (list) enchant_dict_free_string_list(dict, list);
        enchant_broker_free_dict(broker, dict);
    }
    enchant_broker_free(broker);
    return 0;
}
