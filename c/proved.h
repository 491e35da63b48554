/* The proved functions, by the names that the build gives them: `selqumar_x` of crates/selqumar is `selqumar_proved_x` here, so that the name without it is
   free for the function that callers know. They take no null: where there is nothing, any aligned address stands. */
#ifndef SELQUMAR_PROVED_H
#define SELQUMAR_PROVED_H

#include "selqumar.h"

uint32_t selqumar_proved_stats(const struct selqumar_bytes *files, size_t count, uint8_t *out, size_t room, size_t *needed);
uint32_t selqumar_proved_export(const struct selqumar_bytes *files, size_t count, uint8_t *out, size_t room, size_t *needed);
uint32_t selqumar_proved_query(const struct selqumar_bytes *files, size_t count, const uint8_t *query, size_t query_length, uint8_t *out, size_t room, size_t *needed);
uint32_t selqumar_proved_validate(const struct selqumar_bytes *files, size_t count, uint8_t *out, size_t room, size_t *needed);
uint32_t selqumar_proved_open(const struct selqumar_bytes *files, size_t count, struct selqumar_handle *handle, uint8_t *out, size_t room, size_t *needed);
uint32_t selqumar_proved_new(const struct selqumar_node *nodes, size_t count, struct selqumar_handle *handle, uint8_t *out, size_t room, size_t *needed);
uint32_t selqumar_proved_append(struct selqumar_handle *handle, uint32_t worker, uint32_t rows, const struct selqumar_node *nodes, size_t count, uint8_t *out,
                                size_t room, size_t *needed);
uint32_t selqumar_proved_add_column(struct selqumar_handle *handle, const struct selqumar_node *nodes, size_t count, uint8_t *out, size_t room, size_t *needed);
uint32_t selqumar_proved_compact(struct selqumar_handle *handle, uint32_t max_rows, uint8_t *out, size_t room, size_t *needed);
uint32_t selqumar_proved_stats_of(const struct selqumar_handle *handle, uint32_t workers, uint8_t *out, size_t room, size_t *needed);
uint32_t selqumar_proved_open_export(const struct selqumar_handle *handle, uint8_t *out, size_t room, size_t *needed);
uint32_t selqumar_proved_open_query(const struct selqumar_handle *handle, const uint8_t *query, size_t query_length, uint8_t *out, size_t room, size_t *needed);
void selqumar_proved_close(struct selqumar_handle *handle);
uint32_t selqumar_proved_snapshot(const struct selqumar_handle *handle, struct selqumar_snapshot *snapshot);
uint32_t selqumar_proved_snapshot_share(const struct selqumar_snapshot *snapshot, struct selqumar_snapshot *copy);
uint32_t selqumar_proved_snapshot_stats(const struct selqumar_snapshot *snapshot, uint32_t workers, uint8_t *out, size_t room, size_t *needed);
uint32_t selqumar_proved_snapshot_export(const struct selqumar_snapshot *snapshot, uint8_t *out, size_t room, size_t *needed);
uint32_t selqumar_proved_snapshot_query(const struct selqumar_snapshot *snapshot, const uint8_t *query, size_t query_length, uint8_t *out, size_t room, size_t *needed);
uint32_t selqumar_proved_answer(const struct selqumar_snapshot *snapshot, const uint8_t *query, size_t query_length, struct selqumar_handle *handle, uint8_t *out, size_t room,
                                size_t *needed);
uint32_t selqumar_proved_batch_count(const struct selqumar_snapshot *snapshot, size_t *count);
uint32_t selqumar_proved_lend(const struct selqumar_snapshot *snapshot, size_t batch, uint32_t *rows, struct selqumar_node *nodes, size_t room, size_t *needed);
uint32_t selqumar_proved_lend_fields(const struct selqumar_snapshot *snapshot, struct selqumar_node *nodes, size_t room, size_t *needed);
void selqumar_proved_snapshot_close(struct selqumar_snapshot *snapshot);

#endif
