#!/bin/sh
# Writes what g++ gives for each operator and conversion on numbers at the borders of their kinds, as constants for the
# tests of cxx_arith. For the operators with two operands, and for the rest:
#     benches/arithmetic_table.sh two > crates/cxx_arith_tests/src/tests/two.rt
#     benches/arithmetic_table.sh one > crates/cxx_arith_tests/src/tests/one.rt
# and then `rt fmt` in that crate. A constant expression has no undefined behaviour, so a case that g++ doesn't take as
# one is a stop.
folder=$(mktemp -d) || exit 2
trap 'rm -rf "$folder"' EXIT
cat > "$folder/table.cc" <<'CC'
#include <cinttypes>
#include <climits>
#include <cstdint>
#include <cstdio>
#include <string>
#include <type_traits>

template <class T> const char *kind() {
    if constexpr (std::is_same_v<T, bool>) return "Bool";
    else if constexpr (sizeof(T) == 1) return std::is_signed_v<T> ? "I8" : "U8";
    else if constexpr (sizeof(T) == 2) return std::is_signed_v<T> ? "I16" : "U16";
    else if constexpr (sizeof(T) == 4) return std::is_signed_v<T> ? "I32" : "U32";
    else return std::is_signed_v<T> ? "I64" : "U64";
}

template <class T> std::string value(T v) {
    uint64_t bits;
    if constexpr (std::is_same_v<T, bool>) bits = v;
    else bits = static_cast<std::make_unsigned_t<T>>(v);
    char text[64];
    std::snprintf(text, sizeof text, "%s, 0x%" PRIx64, kind<T>(), bits);
    return text;
}

#define OPERATOR(name, sign)                                                                       \
    struct name {                                                                                  \
        template <class A, class B> constexpr auto operator()(A a, B b) const { return a sign b; } \
    };
#define SIGN(name, sign)                                                             \
    struct name {                                                                    \
        template <class A> constexpr auto operator()(A a) const { return sign a; } \
    };
OPERATOR(BitOr, |) OPERATOR(BitXor, ^) OPERATOR(BitAnd, &)
OPERATOR(Equal, ==) OPERATOR(NotEqual, !=) OPERATOR(Less, <) OPERATOR(LessEqual, <=)
OPERATOR(Greater, >) OPERATOR(GreaterEqual, >=) OPERATOR(ShiftLeft, <<) OPERATOR(ShiftRight, >>)
OPERATOR(Add, +) OPERATOR(Subtract, -) OPERATOR(Multiply, *) OPERATOR(Divide, /) OPERATOR(Remainder, %)
SIGN(Negate, -) SIGN(Not, !) SIGN(Complement, ~)

template <class Op, auto... A>
concept Defined = requires { typename std::bool_constant<(Op{}(A...), true)>; };

template <class... R> struct List {};
template <class A, A a, class B, B b> struct Pair {
    static void operands() { std::printf("    (%s, %s),\n", value(a).c_str(), value(b).c_str()); }
    template <class Op> static void result() {
        if constexpr (Defined<Op, a, b>) {
            constexpr auto result = Op{}(a, b);
            std::printf("    Ok((%s)),\n", value(result).c_str());
        } else if (std::is_same_v<Op, ShiftLeft> || std::is_same_v<Op, ShiftRight>) {
            std::printf("    Err(Shift),\n");
        } else {
            std::printf(b == B(0) ? "    Err(ZeroDivisor),\n" : "    Err(Overflow),\n");
        }
    }
};
template <class A, A a> struct One {
    static void operands() { std::printf("    (%s),\n", value(a).c_str()); }
    template <class Op> static void result() {
        if constexpr (Defined<Op, a>) {
            constexpr auto result = Op{}(a);
            std::printf("    Ok((%s)),\n", value(result).c_str());
        } else {
            std::printf("    Err(Overflow),\n");
        }
    }
    template <class T> static void converted() {
        std::printf("    (%s),\n", value(static_cast<T>(a)).c_str());
    }
};

using i8 = int8_t; using u8 = uint8_t; using i16 = int16_t; using u16 = uint16_t;
using i32 = int32_t; using u32 = uint32_t; using i64 = int64_t; using u64 = uint64_t;

using Numbers = List<
    Pair<bool, true, bool, true>, Pair<i8, 127, i8, 1>, Pair<i8, -128, i8, -1>, Pair<u8, 255, u8, 255>,
    Pair<i16, -32768, u16, 65535>, Pair<u16, 65535, u16, 65535>, Pair<i32, INT_MAX, i32, 1>,
    Pair<i32, INT_MIN, i32, -1>, Pair<i32, INT_MIN, i32, 1>, Pair<i32, -7, i32, 2>, Pair<i32, 7, i32, -2>,
    Pair<i32, -1, u32, 1>, Pair<u32, 0, i8, 1>, Pair<u32, UINT_MAX, u32, UINT_MAX>, Pair<i32, 5, i32, 0>,
    Pair<i64, LLONG_MAX, i64, 1>, Pair<i64, LLONG_MIN, i64, -1>, Pair<i64, LLONG_MIN, i32, 1>,
    Pair<i64, -1, u64, 1>, Pair<i64, -7, u32, 2>, Pair<u32, 7, i64, -2>, Pair<u64, 0, u64, 1>,
    Pair<u64, ULLONG_MAX, u64, ULLONG_MAX>, Pair<u64, ULLONG_MAX, i8, -2>, Pair<u64, 5, bool, false>,
    Pair<i64, 3037000500, i64, 3037000500>>;
using Shifts = List<
    Pair<i8, -128, u8, 0>, Pair<i8, 1, i32, 31>, Pair<i8, 1, i32, 32>, Pair<bool, true, bool, true>,
    Pair<u8, 255, i8, 24>, Pair<u16, 65535, i32, 16>, Pair<i32, -1, i32, 31>, Pair<i32, 1, i32, -1>,
    Pair<i32, INT_MIN, u64, 31>, Pair<i32, -5, i32, 1>, Pair<u32, UINT_MAX, i32, 31>, Pair<u32, UINT_MAX, i32, 32>,
    Pair<i32, 1, i64, 4294967296>, Pair<i32, 1, u64, ULLONG_MAX>, Pair<i64, -1, i32, 63>, Pair<i64, 1, i32, 64>,
    Pair<i64, LLONG_MIN, u8, 63>, Pair<i64, -7, i64, 1>, Pair<u64, ULLONG_MAX, i32, 63>, Pair<u64, 1, u64, 64>>;
using Ones = List<
    One<bool, false>, One<bool, true>, One<i8, -128>, One<u8, 255>, One<i16, -32768>, One<u16, 65535>, One<i32, 0>,
    One<i32, 6>, One<i32, INT_MIN>, One<i32, INT_MAX>, One<u32, 1>, One<u32, 0x80000000>, One<u32, UINT_MAX>,
    One<i64, -2>, One<i64, LLONG_MIN>, One<i64, LLONG_MAX>, One<u64, 1>, One<u64, 0x8000000000000000>,
    One<u64, ULLONG_MAX>>;

void begins(const char *name, const char *type) { std::printf("\npub(super) const %s: &[%s] = &[\n", name, type); }
void ends() { std::printf("];\n"); }
template <class... R> void operands(const char *name, const char *type, List<R...>) {
    begins(name, type);
    (R::operands(), ...);
    ends();
}
template <class Op, class... R> void results(const char *name, List<R...>) {
    begins(name, "Expected");
    (R::template result<Op>(), ...);
    ends();
}
template <class T, class... R> void converted(const char *name, List<R...>) {
    begins(name, "Number");
    (R::template converted<T>(), ...);
    ends();
}

void two() {
    std::printf("//! What g++ gives for operators with two operands, by `benches/arithmetic_table.sh`.\n\n"
                "use cxx_arith::ArithStop::{self, Overflow, Shift, ZeroDivisor};\n"
                "use agxx_base::NumKind::{self, Bool, I8, I16, I32, I64, U8, U16, U32, U64};\n\n"
                "/// Two operands, each by its kind and its bits.\n"
                "pub(super) type Operands = (NumKind, u64, NumKind, u64);\n\n"
                "/// The result, by its kind and its bits.\n"
                "pub(super) type Expected = Result<(NumKind, u64), ArithStop>;\n");
    operands("NUMBERS", "Operands", Numbers{});
    operands("SHIFTED", "Operands", Shifts{});
    results<ShiftLeft>("SHIFT_LEFT", Shifts{});
    results<ShiftRight>("SHIFT_RIGHT", Shifts{});
    results<BitOr>("BIT_OR", Numbers{});
    results<BitXor>("BIT_XOR", Numbers{});
    results<BitAnd>("BIT_AND", Numbers{});
    results<Equal>("EQUAL", Numbers{});
    results<NotEqual>("NOT_EQUAL", Numbers{});
    results<Less>("LESS", Numbers{});
    results<LessEqual>("LESS_EQUAL", Numbers{});
    results<Greater>("GREATER", Numbers{});
    results<GreaterEqual>("GREATER_EQUAL", Numbers{});
    results<Add>("ADD", Numbers{});
    results<Subtract>("SUBTRACT", Numbers{});
    results<Multiply>("MULTIPLY", Numbers{});
    results<Divide>("DIVIDE", Numbers{});
    results<Remainder>("REMAINDER", Numbers{});
}

void one() {
    std::printf("//! What g++ gives for operators with one operand and for conversions, by\n"
                "//! `benches/arithmetic_table.sh`.\n\n"
                "use super::two::Expected;\n"
                "use cxx_arith::ArithStop::Overflow;\n"
                "use agxx_base::NumKind::{self, Bool, I8, I16, I32, I64, U8, U16, U32, U64};\n\n"
                "/// A number, by its kind and its bits.\n"
                "pub(super) type Number = (NumKind, u64);\n");
    operands("NUMBERS", "Number", Ones{});
    results<Negate>("NEGATE", Ones{});
    results<Not>("NOT", Ones{});
    results<Complement>("COMPLEMENT", Ones{});
    converted<bool>("TO_BOOL", Ones{});
    converted<i8>("TO_I8", Ones{});
    converted<u8>("TO_U8", Ones{});
    converted<i16>("TO_I16", Ones{});
    converted<u16>("TO_U16", Ones{});
    converted<i32>("TO_I32", Ones{});
    converted<u32>("TO_U32", Ones{});
    converted<i64>("TO_I64", Ones{});
    converted<u64>("TO_U64", Ones{});
}

int main(int, char **words) {
    if (std::string(words[1]) == "two") two();
    else one();
}
CC
g++ -std=c++20 -w -o "$folder/table" "$folder/table.cc" && "$folder/table" "${1:-two}"
