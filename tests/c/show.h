/* What the programs of this folder print of bytes and of a table: every field by its name. */
#ifndef SHOW_H
#define SHOW_H

#include "chaffmoor.h"

#include <stdio.h>

/* In hex, a space before every four, and the line's end. */
static void show_bytes(const uint8_t *bytes, size_t length)
{
    for (size_t k = 0; k < length; k++)
        printf("%s%02x", k % 4 ? "" : " ", bytes[k]);
    printf("\n");
}

/* Whether a bit of the used slots is set. */
static int is_used(const chaffmoor_table *table, int slot)
{
    return table->occupied[slot / 32] >> slot % 32 & 1;
}

/* The numbers of the bits that are set, those that no slot has too. */
static void show_slots(const chaffmoor_table *table)
{
    int bits = 8 * (int)sizeof table->occupied;
    printf(", slots used:");
    for (int i = 0; i < bits; i++)
        if (is_used(table, i))
            printf(" %d", i);
    printf("\n");
}

static void show_place(const char *of, uint32_t endpoint, const chaffmoor_place *place)
{
    printf("  connection of the %s: taken %u, end point %08x, tunnel %u, extended %u, lsp %u\n", of,
           (unsigned)place->taken, (unsigned)endpoint, (unsigned)place->tunnel, (unsigned)place->extended,
           (unsigned)place->lsp);
}

static void show_customer(const chaffmoor_customer *customer)
{
    printf("customer %08x: guarantee %u, limit %u, kept %u, epoch %u, identifier %u\n", (unsigned)customer->address,
           (unsigned)customer->guarantee, (unsigned)customer->limit, (unsigned)customer->kept,
           (unsigned)customer->epoch, (unsigned)customer->identifier);
    for (int j = 0; j < CHAFFMOOR_PLACES; j++)
        if (customer->places[j].taken)
            show_place("customer", customer->endpoints[j], &customer->places[j]);
}

static void show_call(int slot, const chaffmoor_call *call)
{
    printf("call in slot %d: end point %08x, sender %08x, id %u, size %u, name '%.*s'", slot, (unsigned)call->endpoint,
           (unsigned)call->sender, (unsigned)call->id, (unsigned)call->size, (int)call->size,
           (const char *)call->name);
    printf(", refreshed %u, zeros %u %u %u\n", (unsigned)call->refreshed, (unsigned)call->epoch,
           (unsigned)call->identifier, (unsigned)call->made);
    for (int j = 0; j < CHAFFMOOR_PLACES; j++)
        if (call->places[j].taken)
            show_place("call", call->endpoint, &call->places[j]);
}

static void show_table(const chaffmoor_table *table)
{
    printf("table: address %08x, epoch %u, next %u, time %u, listed %u, form %u", (unsigned)table->address,
           (unsigned)table->epoch, (unsigned)table->next, (unsigned)table->time, (unsigned)table->listed,
           (unsigned)table->form);
    show_slots(table);
    for (unsigned k = 0; k < table->listed; k++)
        show_customer(&table->customers[k]);
    for (int i = 0; i < CHAFFMOOR_CALLS; i++)
        if (is_used(table, i))
            show_call(i, &table->calls[i]);
}

#endif
