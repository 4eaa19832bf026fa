// Dates: leap years, days of a month, days of the week.
#include <cstdint>
#include <iostream>

bool is_leap(int year) { return year % 4 == 0 && (year % 100 != 0 || year % 400 == 0); }

int days_of(int month, int year) {
    if (month == 2) {
        return 28 + is_leap(year);
    } else if (month == 4 || month == 6 || month == 9 || month == 11) {
        return 30;
    }
    return 31;
}

class Date {
    int32_t year;
    int8_t month;
    int8_t day;
public:
    Date(int year, int month, int day) : year(year), month(month), day(day) {}
    void next() {
        day++;
        if (day > days_of(month, year)) {
            day = 1;
            ++month;
        }
        if (month > 12) {
            month = 1;
            year++;
        }
    }
    int weekday() {
        int m = month;
        int y = year;
        if (m < 3) {
            m += 12;
            y--;
        }
        return (day + 13 * (m + 1) / 5 + y + y / 4 - y / 100 + y / 400) % 7;
    }
    void show() { std::cout << year << "-" << int(month) << "-" << int(day) << " (" << weekday() << ")"; }
};

Date leap(2024, 2, 28);
Date end(1999, 12, 30);

int main() {
    for (int i = 0; i < 3; ++i) {
        leap.show();
        std::cout << " ";
        end.show();
        std::cout << "\n";
        leap.next();
        end.next();
    }
    std::cout << is_leap(1900) << is_leap(2000) << is_leap(2023) << is_leap(2028) << "\n";
    return 0;
}
