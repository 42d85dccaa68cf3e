#!/bin/sh
# Statistics.
. "$(dirname "$0")/common.sh"
inputs kinds.out cut.out

run stats kinds.out
says 'statistics' wrote 'code sections 3 bytes 16' 'data sections 3 bytes 28' 'initialised sections 6 bytes 44' \
    'uninitialised sections 2 bytes 4196' 'total sections 8 bytes 4240' 'uncounted sections 3 bytes 29'
run stats --json kinds.out
says 'statistics as JSON' ask same_json out '{"code": {"sections": 3, "bytes": 16}, "data": {"sections": 3, "bytes": 28},
    "initialised": {"sections": 6, "bytes": 44}, "uninitialised": {"sections": 2, "bytes": 4196},
    "total": {"sections": 8, "bytes": 4240}, "uncounted": {"sections": 3, "bytes": 29}}'
run stats cut.out
says 'no statistics of a refused file' told_of 'refused 10 0: '
says 'and nothing written' wrote_nothing

end
