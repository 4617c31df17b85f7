#include "region.h"

#include "say.h"

uint64_t place_of(const struct region *region, uint64_t block) {
    return region->offset + block * region->stride;
}

uint64_t end_of(const struct region *region) {
    return place_of(region, region->blocks - 1) + region->block_size;
}

struct region region_of(const struct job *job, uint64_t offset, uint64_t stride) {
    struct region region = {job->block_size, job->blocks, offset, stride ? stride : job->block_size};
    if (offset % job->block_size) give_up("--offset", "this wants a multiple of the job's block size");
    if (region.stride % job->block_size) give_up("--stride", "this wants a multiple of the job's block size");
    if (region.stride > INT64_MAX / 2 / job->blocks || offset > INT64_MAX / 2) give_up("--offset, --stride", "no target reaches so far");
    return region;
}
