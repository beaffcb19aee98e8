/* Includes CALLS, a file of functions for one type of numbers, once for each type. There TYPE is the short name of the type, NUMBER the
 * type, BITS its width, IS_UNSIGNED whether it has no sign, COUNT the unsigned type of its width, LEAST its least number and MOST its
 * greatest. WIDE is the short name of the type of 64 bits with that sign. SET, RANGE, BUFFER, OWNED, CHUNKED, MAP and STRETCH are the
 * header's structs for it, and CALL(call) and MAP_CALL(call) the names of its calls for sets and for maps. */
#define GLUED(a, b, c) a##b##c
#define GLUE(a, b, c) GLUED(a, b, c)

#define SET GLUE(range_set_, TYPE, )
#define RANGE GLUE(range_set_, TYPE, _range)
#define BUFFER GLUE(range_set_, TYPE, _buffer)
#define OWNED GLUE(range_set_, TYPE, _owned)
#define CHUNKED GLUE(range_set_, TYPE, _chunked)
#define MAP GLUE(range_map_, TYPE, )
#define STRETCH GLUE(range_map_, TYPE, _stretch)
#define CALL(call) GLUE(range_set_, TYPE, _##call)
#define MAP_CALL(call) GLUE(range_map_, TYPE, _##call)

#define NUMBER GLUE(NUMBER_, TYPE, )
#define NUMBER_i32 int32_t
#define NUMBER_u32 uint32_t
#define NUMBER_i64 int64_t
#define NUMBER_u64 uint64_t

#define COUNT GLUE(COUNT_, TYPE, )
#define COUNT_i32 uint32_t
#define COUNT_u32 uint32_t
#define COUNT_i64 uint64_t
#define COUNT_u64 uint64_t

#define LEAST GLUE(LEAST_, TYPE, )
#define LEAST_i32 INT32_MIN
#define LEAST_u32 ((uint32_t)0)
#define LEAST_i64 INT64_MIN
#define LEAST_u64 ((uint64_t)0)

#define MOST GLUE(MOST_, TYPE, )
#define MOST_i32 INT32_MAX
#define MOST_u32 UINT32_MAX
#define MOST_i64 INT64_MAX
#define MOST_u64 UINT64_MAX

#define BITS GLUE(BITS_, TYPE, )
#define BITS_i32 32
#define BITS_u32 32
#define BITS_i64 64
#define BITS_u64 64

#define IS_UNSIGNED GLUE(IS_UNSIGNED_, TYPE, )
#define IS_UNSIGNED_i32 0
#define IS_UNSIGNED_u32 1
#define IS_UNSIGNED_i64 0
#define IS_UNSIGNED_u64 1

#define WIDE GLUE(WIDE_, TYPE, )
#define WIDE_i32 i64
#define WIDE_u32 u64
#define WIDE_i64 i64
#define WIDE_u64 u64

#define TYPE i32
#include CALLS
#undef TYPE

#define TYPE u32
#include CALLS
#undef TYPE

#define TYPE i64
#include CALLS
#undef TYPE

#define TYPE u64
#include CALLS
#undef TYPE

#undef CALLS
