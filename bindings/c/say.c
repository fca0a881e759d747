/* A member of a group of three on this machine. It says a word, prints the first three messages of the group, and leaves:

       ./say 0 hello & ./say 1 moin & ./say 2 servus & wait

   All three print the same three lines. */
#include <muoswyld_group.h>

#include <stdio.h>
#include <string.h>

int main(int words, char **word) {
    const char *addresses[] = {"127.0.0.1:7200", "127.0.0.1:7201", "127.0.0.1:7202"};
    muoswyld_config *config;
    muoswyld_group *group;
    muoswyld_delivery delivery;
    muoswyld_status status;
    int place, seen = 0;

    if (words != 3)
        return 2;
    status = muoswyld_config_new(word[1], "0,1,2", &config);
    if (status != MUOSWYLD_STATUS_OK) {
        fprintf(stderr, "%s: %s\n", word[1], muoswyld_status_text(status));
        return 1;
    }
    for (place = 0; place < 3; place++)
        muoswyld_config_address(config, (uint8_t)place, addresses[place]);
    muoswyld_config_insecure(config); /* on one machine; else muoswyld_config_key */
    status = muoswyld_group_create(config, &group);
    if (status != MUOSWYLD_STATUS_OK)
        fprintf(stderr, "%s\n", muoswyld_config_error(config));
    muoswyld_config_free(config);
    if (status != MUOSWYLD_STATUS_OK)
        return 1;

    status = muoswyld_group_send(group, (const uint8_t *)word[2], strlen(word[2]), -1, NULL);
    while (status == MUOSWYLD_STATUS_OK && seen < 3) {
        status = muoswyld_group_receive(group, -1, &delivery);
        if (status == MUOSWYLD_STATUS_OK && delivery.kind == MUOSWYLD_KIND_MESSAGE) {
            printf("%d says %.*s\n", delivery.name.place, (int)delivery.length, (const char *)delivery.message);
            seen++;
        }
        muoswyld_delivery_clear(&delivery);
    }
    if (status != MUOSWYLD_STATUS_OK)
        fprintf(stderr, "%s\n", muoswyld_status_text(status));
    muoswyld_group_leave(group, 10000);
    muoswyld_group_free(group);
    return status != MUOSWYLD_STATUS_OK;
}
