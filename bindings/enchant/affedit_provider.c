/*
 * A provider for Enchant 2 that asks Affedit's library. A dictionary TAG is a pair of files, TAG.aff and TAG.dic, in the first folder that has
 * both: the one that AFFEDIT_DICTIONARIES names, the folder `affedit` beside the user's settings of Enchant, and /usr/share/hunspell. It suggests
 * nothing, and lists only dictionaries in an encoding that it reads. Words of the user's, and those of a session, are Enchant's own matter.
 *
 * Nothing here is proved. What affedit.h asks of its callers holds where one thread at a time uses a dictionary, which Enchant asks too.
 */
#include <affedit.h>
#include <enchant-provider.h>
#include <glib.h>
#include <gmodule.h>
#include <string.h>

static const char SYSTEM_FOLDER[] = "/usr/share/hunspell";

/* ---- where dictionaries are */

/* The folders, as strings of the caller's. */
static GPtrArray *folders(void) {
    GPtrArray *all = g_ptr_array_new_with_free_func(g_free);
    const char *named = g_getenv("AFFEDIT_DICTIONARIES");
    char *settings = enchant_get_user_config_dir();
    if (named && *named) g_ptr_array_add(all, g_strdup(named));
    if (settings) g_ptr_array_add(all, g_build_filename(settings, "affedit", NULL));
    g_ptr_array_add(all, g_strdup(SYSTEM_FOLDER));
    g_free(settings);
    return all;
}

/* A file of a folder, FOLDER/TAG.END, if there is one; else NULL. */
static char *file_of(const char *folder, const char *tag, const char *end) {
    char *base = g_strconcat(tag, end, NULL), *name = g_build_filename(folder, base, NULL);
    g_free(base);
    if (g_file_test(name, G_FILE_TEST_IS_REGULAR)) return name;
    g_free(name);
    return NULL;
}

/* The names of both files of a dictionary, as strings of the caller's, and whether there are such files. */
static bool find(const char *tag, char **aff, char **dic) {
    bool is_found = false;
    *aff = *dic = NULL;
    /* A tag names no other folder. */
    if (strchr(tag, G_DIR_SEPARATOR)) return false;
    GPtrArray *all = folders();
    for (guint i = 0; i < all->len && !is_found; i++) {
        *aff = file_of(all->pdata[i], tag, ".aff");
        *dic = file_of(all->pdata[i], tag, ".dic");
        is_found = *aff && *dic;
        if (!is_found) {
            g_free(*aff);
            g_free(*dic);
            *aff = *dic = NULL;
        }
    }
    g_ptr_array_free(all, TRUE);
    return is_found;
}

/* ---- what is wrong with a file */

/* Takes a message, and frees it. */
static void tell(EnchantProvider *provider, char *message) {
    enchant_provider_set_error(provider, message);
    g_free(message);
}

static void tell_fault(EnchantProvider *provider, const char *aff, const char *dic, affedit_fault fault) {
    const char *file = fault.file == AFFEDIT_AFF_FILE ? aff : dic;
    uint8_t none = 0;
    size_t length = affedit_cause(&fault, &none, 0);
    char *why = g_malloc0(length + 1);
    affedit_cause(&fault, (uint8_t *)why, length);
    /* A file with too many bytes has a fault at no line. */
    if (fault.line == 0)
        tell(provider, g_strdup_printf("%s: %s", file, why));
    else
        tell(provider, g_strdup_printf("%s:%" G_GUINT64_FORMAT ": %s", file, fault.line, why));
    g_free(why);
}

/* The bytes of a file, which are the caller's, or NULL, which is told. */
static char *read_file(EnchantProvider *provider, const char *name, gsize *length) {
    char *bytes = NULL;
    GError *error = NULL;
    if (g_file_get_contents(name, &bytes, length, &error)) return bytes;
    tell(provider, g_strdup_printf("%s: %s", name, error->message));
    g_error_free(error);
    return NULL;
}

/* ---- a dictionary */

/* What is kept of one: WORDCHARS as numbers, and what of it is no letter as Enchant's `extra word characters`. */
typedef struct {
    affedit_dictionary dictionary;
    uint32_t *characters;
    size_t count;
    char *extra;
} kept_dictionary;

/* 0 for a word that the dictionary generates, and 1 for another one; below 0 where it can't be said. */
static int check(EnchantDict *dict, const char *word, size_t length) {
    switch (affedit_word(&((kept_dictionary *)dict->user_data)->dictionary, (const uint8_t *)word, length)) {
    case AFFEDIT_KNOWN:
        return 0;
    case AFFEDIT_UNKNOWN:
    case AFFEDIT_NOT_UTF8:
        return 1;
    default:
        enchant_dict_set_error(dict, "there is too little memory");
        return -1;
    }
}

/* An apostrophe stands in a word between two other characters of it. */
static bool is_apostrophe(uint32_t c) { return c == '\'' || c == 0x2019; }

/* Letters and combining marks, as Affedit cuts words. */
static bool is_letter(uint32_t c) {
    return c <= 0x10ffff && (g_unichar_isalpha(c) || g_unichar_ismark(c) || g_unichar_type(c) == G_UNICODE_LETTER_NUMBER);
}

/* Whether a character stands in words: at their front (0), inside (1) or at their end (2). */
static int is_word_character(EnchantDict *dict, uint32_t c, size_t place) {
    const kept_dictionary *kept = dict->user_data;
    if (place > 2 || c == '\n') return 0;
    if (is_apostrophe(c)) return place == 1;
    if (is_letter(c)) return 1;
    for (size_t i = 0; i < kept->count; i++)
        if (kept->characters[i] == c) return 1;
    return 0;
}

static const char *get_extra_word_characters(EnchantDict *dict) { return ((const kept_dictionary *)dict->user_data)->extra; }

/* Asks for WORDCHARS, once. Enchant wants a dash last. */
static void keep_characters(kept_dictionary *kept) {
    GString *extra = g_string_new("'\xe2\x80\x99");
    bool has_dash = false;
    uint32_t none = 0;
    affedit_word_characters(&kept->dictionary, &none, 0, &kept->count);
    kept->characters = g_new0(uint32_t, kept->count + 1);
    affedit_word_characters(&kept->dictionary, kept->characters, kept->count, &kept->count);
    for (size_t i = 0; i < kept->count; i++) {
        uint32_t c = kept->characters[i];
        if (c == '-')
            has_dash = true;
        else if (!is_letter(c) && !is_apostrophe(c))
            g_string_append_unichar(extra, c);
    }
    if (has_dash) g_string_append_c(extra, '-');
    kept->extra = g_string_free(extra, FALSE);
}

static EnchantDict *request_dict(EnchantProvider *provider, const char *tag) {
    EnchantDict *dict = NULL;
    kept_dictionary *kept;
    char *aff, *dic, *aff_bytes = NULL, *dic_bytes = NULL;
    gsize aff_length, dic_length;
    if (!find(tag, &aff, &dic)) return NULL;
    aff_bytes = read_file(provider, aff, &aff_length);
    if (aff_bytes) dic_bytes = read_file(provider, dic, &dic_length);
    if (dic_bytes) {
        affedit_dictionary dictionary = AFFEDIT_CLOSED_HANDLE;
        affedit_fault fault = {0};
        switch (affedit_open((uint8_t *)aff_bytes, aff_length, (uint8_t *)dic_bytes, dic_length, &dictionary, &fault)) {
        case AFFEDIT_DONE:
            dict = g_new0(EnchantDict, 1);
            dict->user_data = kept = g_new0(kept_dictionary, 1);
            kept->dictionary = dictionary;
            keep_characters(kept);
            dict->check = check;
            dict->get_extra_word_characters = get_extra_word_characters;
            dict->is_word_character = is_word_character;
            break;
        case AFFEDIT_FAULTY:
            tell_fault(provider, aff, dic, fault);
            break;
        default:
            tell(provider, g_strdup_printf("%s: there is too little memory", dic));
        }
    }
    g_free(aff);
    g_free(dic);
    g_free(aff_bytes);
    g_free(dic_bytes);
    return dict;
}

static void dispose_dict(EnchantProvider *provider, EnchantDict *dict) {
    (void)provider;
    kept_dictionary *kept = dict->user_data;
    affedit_close(&kept->dictionary);
    g_free(kept->characters);
    g_free(kept->extra);
    g_free(kept);
    g_free(dict);
}

/* ---- the provider */

/* Whether an .aff file is in an encoding that is read. A fault of another kind is told once the dictionary is asked for. */
static bool has_known_encoding(const char *aff) {
    affedit_dictionary dictionary = AFFEDIT_CLOSED_HANDLE;
    affedit_fault fault = {0};
    char *bytes;
    gsize length;
    if (!g_file_get_contents(aff, &bytes, &length, NULL)) return true;
    uint32_t answer = affedit_open((uint8_t *)bytes, length, (const uint8_t *)"0\n", 2, &dictionary, &fault);
    affedit_close(&dictionary);
    g_free(bytes);
    bool is_other = fault.cause == AFFEDIT_AFF_NOT_UTF8 || fault.cause == AFFEDIT_AFF_OTHER_ENCODING;
    return answer != AFFEDIT_FAULTY || !is_other;
}

static int dictionary_exists(EnchantProvider *provider, const char *tag) {
    (void)provider;
    char *aff, *dic;
    bool is_found = find(tag, &aff, &dic) && has_known_encoding(aff);
    g_free(aff);
    g_free(dic);
    return is_found;
}

/* The tags of all pairs, each once, in a list that ends with NULL and that Enchant frees. */
static char **list_dicts(EnchantProvider *provider, size_t *count) {
    GHashTable *tags = g_hash_table_new(g_str_hash, g_str_equal);
    GPtrArray *all = folders(), *list = g_ptr_array_new();
    for (guint i = 0; i < all->len; i++) {
        GDir *folder = g_dir_open(all->pdata[i], 0, NULL);
        const char *name;
        while (folder && (name = g_dir_read_name(folder))) {
            if (!g_str_has_suffix(name, ".aff")) continue;
            char *tag = g_strndup(name, strlen(name) - strlen(".aff"));
            if (*tag && !g_hash_table_contains(tags, tag) && dictionary_exists(provider, tag)) {
                g_hash_table_add(tags, tag);
                g_ptr_array_add(list, tag);
            } else
                g_free(tag);
        }
        if (folder) g_dir_close(folder);
    }
    *count = list->len;
    g_ptr_array_add(list, NULL);
    g_ptr_array_free(all, TRUE);
    g_hash_table_destroy(tags);
    return (char **)g_ptr_array_free(list, FALSE);
}

static const char *identify(EnchantProvider *provider) {
    (void)provider;
    return "affedit";
}

static const char *describe(EnchantProvider *provider) {
    (void)provider;
    return "Affedit Provider";
}

static void dispose(EnchantProvider *provider) { g_free(provider); }

/* What Enchant calls as it loads the module. */
G_MODULE_EXPORT EnchantProvider *init_enchant_provider(void);

EnchantProvider *init_enchant_provider(void) {
    EnchantProvider *provider = g_new0(EnchantProvider, 1);
    provider->dispose = dispose;
    provider->request_dict = request_dict;
    provider->dispose_dict = dispose_dict;
    provider->dictionary_exists = dictionary_exists;
    provider->identify = identify;
    provider->describe = describe;
    provider->list_dicts = list_dicts;
    return provider;
}
