// Boost.Compute's algorithms on the driver, each against what the standard library computes: a line for each. By hand:
//     c++ -o compute compute.cpp -lOpenCL && OCL_ICD_VENDORS=../../vendors ./compute [NAME]..
#define CL_TARGET_OPENCL_VERSION 120
#define BOOST_COMPUTE_DEBUG_KERNEL_COMPILATION
#include <algorithm>
#include <boost/compute.hpp>
#include <boost/compute/algorithm/nth_element.hpp>
#include <functional>
#include <iostream>
#include <map>
#include <numeric>
#include <random>

namespace compute = boost::compute;
using compute::lambda::_1;
using compute::lambda::_2;
using ints = std::vector<int>;
using floats = std::vector<float>;
using on_device = compute::vector<int>;

static const size_t N = 200;
static compute::command_queue queue;

static ints data(int times = 37) {
    ints v(N);
    for (size_t i = 0; i < N; i++) v[i] = static_cast<int>(i) * times % 101 - 40;
    return v;
}

static ints sorted(int times = 37) {
    ints v = data(times);
    std::sort(v.begin(), v.end());
    return v;
}

static floats reals(float by = 0.25f) {
    floats v;
    for (int n : data()) v.push_back(static_cast<float>(n) * by);
    return v;
}

template <class T> static compute::vector<T> sent(const std::vector<T> &v) {
    return compute::vector<T>(v.begin(), v.end(), queue);
}

template <class T> static std::vector<T> got(const compute::vector<T> &v, size_t n = SIZE_MAX) {
    std::vector<T> back(std::min(n, v.size()));
    compute::copy(v.begin(), v.begin() + static_cast<std::ptrdiff_t>(back.size()), back.begin(), queue);
    return back;
}

template <class T> static bool near(const std::vector<T> &a, const std::vector<T> &b) {
    for (size_t i = 0; i < a.size(); i++)
        if (!(std::abs(a[i] - b[i]) <= 1e-4 * std::max<T>(1, std::abs(b[i])))) return false;
    return a.size() == b.size();
}

BOOST_COMPUTE_FUNCTION(bool, is_odd, (int x), { return x & 1; });
BOOST_COMPUTE_FUNCTION(int, twice_and, (int x, int y), { return 2 * x + y; });
BOOST_COMPUTE_FUNCTION(bool, by_last_digit, (int x, int y), { return abs(x) % 10 < abs(y) % 10; });

// What each use is called, and whether it leaves what it should.
static const std::map<std::string, std::function<bool()>> uses = {
    {"copy", [] { return got(sent(data())) == data(); }},
    {"copy on the device",
     [] {
         on_device a = sent(data()), b(N, queue.get_context());
         compute::copy(a.begin(), a.end(), b.begin(), queue);
         return got(b) == data();
     }},
    {"copy to another type",
     [] {
         on_device a = sent(data());
         compute::vector<compute::long_> b(N, queue.get_context());
         compute::copy(a.begin(), a.end(), b.begin(), queue);
         ints v = data();
         return got(b) == std::vector<compute::long_>(v.begin(), v.end());
     }},
    {"copy_if",
     [] {
         on_device a = sent(data()), b(N, queue.get_context());
         auto end = compute::copy_if(a.begin(), a.end(), b.begin(), _1 > 7, queue);
         ints v = data(), w;
         std::copy_if(v.begin(), v.end(), std::back_inserter(w), [](int x) { return x > 7; });
         return got(b, static_cast<size_t>(end - b.begin())) == w;
     }},
    {"fill and iota",
     [] {
         on_device a(N, queue.get_context());
         compute::fill(a.begin(), a.end(), 7, queue);
         compute::iota(a.begin() + 3, a.end(), -5, queue);
         ints v(N, 7);
         std::iota(v.begin() + 3, v.end(), -5);
         return got(a) == v;
     }},
    {"transform",
     [] {
         on_device a = sent(data()), b = sent(data(5));
         compute::transform(a.begin(), a.end(), b.begin(), b.begin(), twice_and, queue);
         ints v = data(), w = data(5);
         std::transform(v.begin(), v.end(), w.begin(), w.begin(), [](int x, int y) { return 2 * x + y; });
         return got(b) == w;
     }},
    {"transform by a lambda",
     [] {
         on_device a = sent(data());
         compute::transform(a.begin(), a.end(), a.begin(), _1 * 3 - (_1 & 5), queue);
         ints v = data();
         for (int &x : v) x = x * 3 - (x & 5);
         return got(a) == v;
     }},
    {"transform of floats by sqrt",
     [] {
         auto a = sent(reals());
         compute::transform(a.begin(), a.end(), a.begin(), compute::fabs<float>(), queue);
         compute::transform(a.begin(), a.end(), a.begin(), compute::sqrt<float>(), queue);
         floats v = reals();
         for (float &x : v) x = std::sqrt(std::fabs(x));
         return got(a) == v;
     }},
    {"transform of vectors",
     [] {
         std::vector<compute::int4_> v(N);
         for (size_t i = 0; i < N; i++) v[i] = compute::int4_(data()[i], static_cast<int>(i), 3, -1);
         auto a = sent(v);
         compute::transform(a.begin(), a.end(), a.begin(), a.begin(), compute::plus<compute::int4_>(), queue);
         auto b = got(a);
         bool right = true;
         for (size_t i = 0; i < N; i++)
             for (size_t k = 0; k < 4; k++) right = right && b[i][k] == 2 * v[i][k];
         return right;
     }},
    {"transform_if",
     [] {
         on_device a = sent(data()), b(N, queue.get_context());
         auto end = compute::transform_if(a.begin(), a.end(), b.begin(), compute::abs<int>(), _1 < 0, queue);
         ints w;
         for (int x : data())
             if (x < 0) w.push_back(-x);
         return got(b, static_cast<size_t>(end - b.begin())) == w;
     }},
    {"transform_reduce",
     [] {
         on_device a = sent(data());
         int sum = 0, wanted = 0;
         compute::transform_reduce(a.begin(), a.end(), &sum, compute::abs<int>(), compute::plus<int>(), queue);
         for (int x : data()) wanted += std::abs(x);
         return sum == wanted;
     }},
    {"reduce",
     [] {
         on_device a = sent(data());
         int sum = 0;
         ints v = data();
         compute::reduce(a.begin(), a.end(), &sum, queue);
         return sum == std::accumulate(v.begin(), v.end(), 0);
     }},
    {"reduce of 3000",
     [] {
         ints v(3000);
         std::iota(v.begin(), v.end(), -70);
         on_device a = sent(v);
         int sum = 0;
         compute::reduce(a.begin(), a.end(), &sum, queue);
         return sum == std::accumulate(v.begin(), v.end(), 0);
     }},
    {"reduce by max",
     [] {
         on_device a = sent(data());
         int most = 0;
         ints v = data();
         compute::reduce(a.begin(), a.end(), &most, compute::max<int>(), queue);
         return most == *std::max_element(v.begin(), v.end());
     }},
    {"reduce of floats",
     [] {
         auto a = sent(reals());
         float sum = 0;
         floats v = reals();
         compute::reduce(a.begin(), a.end(), &sum, queue);
         return sum == std::accumulate(v.begin(), v.end(), 0.0f);
     }},
    {"reduce of doubles",
     [] {
         std::vector<double> v(N);
         for (size_t i = 0; i < N; i++) v[i] = 0.5 * data()[i];
         auto a = sent(v);
         double sum = 0;
         compute::reduce(a.begin(), a.end(), &sum, queue);
         return sum == std::accumulate(v.begin(), v.end(), 0.0);
     }},
    {"reduce_by_key",
     [] {
         ints k(N), v = data(), keys, sums;
         for (size_t i = 0; i < N; i++) k[i] = static_cast<int>(i / 7);
         on_device a = sent(k), b = sent(v), c(N, queue.get_context()), d(N, queue.get_context());
         auto ends = compute::reduce_by_key(a.begin(), a.end(), b.begin(), c.begin(), d.begin(), queue);
         for (size_t i = 0; i < N; i++) {
             if (keys.empty() || keys.back() != k[i]) keys.push_back(k[i]), sums.push_back(0);
             sums.back() += v[i];
         }
         return got(c, static_cast<size_t>(ends.first - c.begin())) == keys && got(d, keys.size()) == sums;
     }},
    {"accumulate",
     [] {
         on_device a = sent(data());
         ints v = data();
         return compute::accumulate(a.begin(), a.end(), 9, queue) == std::accumulate(v.begin(), v.end(), 9);
     }},
    {"accumulate of floats, in order",
     [] {
         auto a = sent(reals(0.1f));
         floats v = reals(0.1f);
         float sum = compute::accumulate(a.begin(), a.end(), 0.5f, compute::plus<float>(), queue);
         return near<float>({sum}, {std::accumulate(v.begin(), v.end(), 0.5f)});
     }},
    {"inner_product",
     [] {
         on_device a = sent(data()), b = sent(data(5));
         ints v = data(), w = data(5);
         return compute::inner_product(a.begin(), a.end(), b.begin(), 3, queue) ==
                std::inner_product(v.begin(), v.end(), w.begin(), 3);
     }},
    {"count and count_if",
     [] {
         on_device a = sent(data());
         ints v = data();
         return compute::count(a.begin(), a.end(), 3, queue) ==
                    static_cast<size_t>(std::count(v.begin(), v.end(), 3)) &&
                compute::count_if(a.begin(), a.end(), is_odd, queue) ==
                    static_cast<size_t>(std::count_if(v.begin(), v.end(), [](int x) { return x & 1; }));
     }},
    {"all_of, any_of, none_of",
     [] {
         on_device a = sent(data());
         return compute::all_of(a.begin(), a.end(), _1 >= -40, queue) &&
                compute::any_of(a.begin(), a.end(), _1 == -40, queue) &&
                compute::none_of(a.begin(), a.end(), _1 > 60, queue);
     }},
    {"find, find_if, adjacent_find",
     [] {
         on_device a = sent(data()), b = sent(sorted());
         ints v = data(), w = sorted();
         return compute::find(a.begin(), a.end(), 20, queue) - a.begin() ==
                    std::find(v.begin(), v.end(), 20) - v.begin() &&
                compute::find_if(a.begin(), a.end(), _1 > 55, queue) - a.begin() ==
                    std::find_if(v.begin(), v.end(), [](int x) { return x > 55; }) - v.begin() &&
                compute::adjacent_find(b.begin(), b.end(), queue) - b.begin() ==
                    std::adjacent_find(w.begin(), w.end()) - w.begin();
     }},
    {"min_element and max_element",
     [] {
         on_device a = sent(data());
         ints v = data();
         return *compute::min_element(a.begin(), a.end(), queue) == *std::min_element(v.begin(), v.end()) &&
                *compute::max_element(a.begin(), a.end(), queue) == *std::max_element(v.begin(), v.end());
     }},
    {"minmax_element of floats",
     [] {
         auto a = sent(reals());
         floats v = reals();
         auto ends = compute::minmax_element(a.begin(), a.end(), queue);
         return *ends.first == *std::min_element(v.begin(), v.end()) &&
                *ends.second == *std::max_element(v.begin(), v.end());
     }},
    {"equal and mismatch",
     [] {
         ints w = data();
         w[77]++;
         on_device a = sent(data()), b = sent(data()), c = sent(w);
         return compute::equal(a.begin(), a.end(), b.begin(), queue) &&
                !compute::equal(a.begin(), a.end(), c.begin(), queue) &&
                compute::mismatch(a.begin(), a.end(), c.begin(), queue).first - a.begin() == 77;
     }},
    {"lexicographical_compare",
     [] {
         ints w = data();
         w[77]++;
         on_device a = sent(data()), b = sent(w);
         return compute::lexicographical_compare(a.begin(), a.end(), b.begin(), b.end(), queue) &&
                !compute::lexicographical_compare(b.begin(), b.end(), a.begin(), a.end(), queue);
     }},
    {"inclusive_scan",
     [] {
         on_device a = sent(data());
         compute::inclusive_scan(a.begin(), a.end(), a.begin(), queue);
         ints v = data();
         std::partial_sum(v.begin(), v.end(), v.begin());
         return got(a) == v;
     }},
    {"exclusive_scan",
     [] {
         on_device a = sent(data()), b(N, queue.get_context());
         compute::exclusive_scan(a.begin(), a.end(), b.begin(), 10, queue);
         ints v = data(), w(N);
         int sum = 10;
         for (size_t i = 0; i < N; i++) w[i] = sum, sum += v[i];
         return got(b) == w;
     }},
    {"inclusive_scan of 2000 by max",
     [] {
         ints v(2000);
         for (size_t i = 0; i < v.size(); i++) v[i] = static_cast<int>(i * 37 % 1009);
         on_device a = sent(v);
         compute::inclusive_scan(a.begin(), a.end(), a.begin(), compute::max<int>(), queue);
         for (size_t i = 1; i < v.size(); i++) v[i] = std::max(v[i], v[i - 1]);
         return got(a) == v;
     }},
    {"inclusive_scan of floats",
     [] {
         auto a = sent(reals());
         compute::inclusive_scan(a.begin(), a.end(), a.begin(), queue);
         floats v = reals();
         std::partial_sum(v.begin(), v.end(), v.begin());
         return got(a) == v;
     }},
    {"partial_sum and adjacent_difference",
     [] {
         on_device a = sent(data()), b(N, queue.get_context());
         compute::adjacent_difference(a.begin(), a.end(), b.begin(), queue);
         compute::partial_sum(b.begin(), b.end(), b.begin(), queue);
         return got(b) == data();
     }},
    {"sort",
     [] {
         on_device a = sent(data());
         compute::sort(a.begin(), a.end(), queue);
         return got(a) == sorted();
     }},
    {"sort of 3000",
     [] {
         ints v(3000);
         for (size_t i = 0; i < v.size(); i++) v[i] = static_cast<int>(i * 7919 % 3001) - 1500;
         on_device a = sent(v);
         compute::sort(a.begin(), a.end(), queue);
         std::sort(v.begin(), v.end());
         return got(a) == v;
     }},
    {"sort of 32",
     [] {
         ints v = data();
         v.resize(32);
         on_device a = sent(v);
         compute::sort(a.begin(), a.end(), queue);
         std::sort(v.begin(), v.end());
         return got(a) == v;
     }},
    {"sort downwards",
     [] {
         on_device a = sent(data());
         compute::sort(a.begin(), a.end(), compute::greater<int>(), queue);
         ints v = sorted();
         std::reverse(v.begin(), v.end());
         return got(a) == v;
     }},
    {"sort of floats",
     [] {
         auto a = sent(reals());
         compute::sort(a.begin(), a.end(), queue);
         floats v = reals();
         std::sort(v.begin(), v.end());
         return got(a) == v;
     }},
    {"sort of ulongs",
     [] {
         std::vector<compute::ulong_> v(N);
         for (size_t i = 0; i < N; i++) v[i] = (i * 0x9e3779b97f4a7c15u) >> 3;
         auto a = sent(v);
         compute::sort(a.begin(), a.end(), queue);
         std::sort(v.begin(), v.end());
         return got(a) == v;
     }},
    {"stable_sort by a function",
     [] {
         on_device a = sent(data());
         compute::stable_sort(a.begin(), a.end(), by_last_digit, queue);
         ints v = data();
         std::stable_sort(v.begin(), v.end(), [](int x, int y) { return std::abs(x) % 10 < std::abs(y) % 10; });
         return got(a) == v;
     }},
    {"sort_by_key",
     [] {
         ints k = data(), v(N), w(N);
         std::iota(v.begin(), v.end(), 0);
         on_device a = sent(k), b = sent(v);
         compute::sort_by_key(a.begin(), a.end(), b.begin(), queue);
         std::stable_sort(v.begin(), v.end(), [&](int x, int y) { return k[x] < k[y]; });
         return got(a) == sorted() && got(b) == v;
     }},
    {"is_sorted and nth_element",
     [] {
         on_device a = sent(data()), b = sent(sorted());
         bool right = !compute::is_sorted(a.begin(), a.end(), queue) && compute::is_sorted(b.begin(), b.end(), queue);
         compute::nth_element(a.begin(), a.begin() + 50, a.end(), queue);
         return right && got(a)[50] == sorted()[50];
     }},
    {"merge",
     [] {
         on_device a = sent(sorted()), b = sent(sorted(5)), c(2 * N, queue.get_context());
         compute::merge(a.begin(), a.end(), b.begin(), b.end(), c.begin(), queue);
         ints v = sorted(), w = sorted(5), m(2 * N);
         std::merge(v.begin(), v.end(), w.begin(), w.end(), m.begin());
         return got(c) == m;
     }},
    {"lower_bound, upper_bound, binary_search",
     [] {
         on_device a = sent(sorted());
         ints v = sorted();
         return compute::lower_bound(a.begin(), a.end(), 11, queue) - a.begin() ==
                    std::lower_bound(v.begin(), v.end(), 11) - v.begin() &&
                compute::upper_bound(a.begin(), a.end(), 11, queue) - a.begin() ==
                    std::upper_bound(v.begin(), v.end(), 11) - v.begin() &&
                compute::binary_search(a.begin(), a.end(), 11, queue) &&
                !compute::binary_search(a.begin(), a.end(), 1000, queue);
     }},
    {"set_union and set_intersection",
     [] {
         ints v = sorted(), w = sorted(5), u, x;
         v.resize(90);
         on_device a = sent(v), b = sent(w), c(2 * N, queue.get_context());
         auto end = compute::set_union(a.begin(), a.end(), b.begin(), b.end(), c.begin(), queue);
         std::set_union(v.begin(), v.end(), w.begin(), w.end(), std::back_inserter(u));
         bool right = got(c, static_cast<size_t>(end - c.begin())) == u;
         end = compute::set_intersection(a.begin(), a.end(), b.begin(), b.end(), c.begin(), queue);
         std::set_intersection(v.begin(), v.end(), w.begin(), w.end(), std::back_inserter(x));
         return right && got(c, static_cast<size_t>(end - c.begin())) == x;
     }},
    {"unique",
     [] {
         on_device a = sent(sorted());
         auto end = compute::unique(a.begin(), a.end(), queue);
         ints v = sorted();
         v.erase(std::unique(v.begin(), v.end()), v.end());
         return got(a, static_cast<size_t>(end - a.begin())) == v;
     }},
    {"remove_if, replace, partition",
     [] {
         on_device a = sent(data()), b = sent(data()), c = sent(data());
         auto end = compute::remove_if(a.begin(), a.end(), is_odd, queue);
         compute::replace(b.begin(), b.end(), 3, -3, queue);
         auto middle = compute::partition(c.begin(), c.end(), _1 < 5, queue);
         ints v = data(), w = data();
         v.erase(std::remove_if(v.begin(), v.end(), [](int x) { return x & 1; }), v.end());
         std::replace(w.begin(), w.end(), 3, -3);
         ints d = data();
         return got(a, static_cast<size_t>(end - a.begin())) == v && got(b) == w &&
                middle - c.begin() == std::count_if(d.begin(), d.end(), [](int x) { return x < 5; });
     }},
    {"reverse, rotate, swap_ranges",
     [] {
         on_device a = sent(data()), b = sent(data(5));
         compute::reverse(a.begin(), a.end(), queue);
         compute::rotate(a.begin(), a.begin() + 30, a.end(), queue);
         compute::swap_ranges(a.begin(), a.begin() + 50, b.begin(), queue);
         ints v = data(), w = data(5);
         std::reverse(v.begin(), v.end());
         std::rotate(v.begin(), v.begin() + 30, v.end());
         std::swap_ranges(v.begin(), v.begin() + 50, w.begin());
         return got(a) == v && got(b) == w;
     }},
    {"gather and scatter",
     [] {
         ints order(N), v = data(), w(N), x(N);
         for (size_t i = 0; i < N; i++) order[i] = static_cast<int>(i * 7 % N);
         on_device at = sent(order), a = sent(v), b(N, queue.get_context()), c(N, queue.get_context());
         compute::gather(at.begin(), at.end(), a.begin(), b.begin(), queue);
         compute::scatter(a.begin(), a.end(), at.begin(), c.begin(), queue);
         for (size_t i = 0; i < N; i++) w[i] = v[order[i]], x[order[i]] = v[i];
         return got(b) == w && got(c) == x;
     }},
    {"search and find_end",
     [] {
         ints v = data(), w(v.begin() + 60, v.begin() + 66);
         on_device a = sent(v), b = sent(w);
         return compute::search(a.begin(), a.end(), b.begin(), b.end(), queue) - a.begin() ==
                    std::search(v.begin(), v.end(), w.begin(), w.end()) - v.begin() &&
                compute::find_end(a.begin(), a.end(), b.begin(), b.end(), queue) - a.begin() ==
                    std::find_end(v.begin(), v.end(), w.begin(), w.end()) - v.begin();
     }},
    {"next_permutation",
     [] {
         ints v = data();
         on_device a = sent(v);
         bool right = compute::next_permutation(a.begin(), a.end(), queue);
         return right == std::next_permutation(v.begin(), v.end()) && got(a) == v;
     }},
    {"random numbers",
     [] {
         compute::mt19937 engine(queue, 5);
         compute::vector<compute::uint_> a(N, queue.get_context());
         engine.generate(a.begin(), a.end(), queue);
         std::mt19937 wanted(5);
         std::vector<compute::uint_> v(N);
         for (auto &x : v) x = static_cast<compute::uint_>(wanted());
         return got(a) == v;
     }},
    {"random floats",
     [] {
         compute::default_random_engine engine(queue, 5);
         compute::uniform_real_distribution<float> unit(1.0f, 4.0f);
         compute::vector<float> a(N, queue.get_context());
         unit.generate(a.begin(), a.end(), engine, queue);
         floats v = got(a);
         return std::all_of(v.begin(), v.end(), [](float x) { return x >= 1 && x < 4; });
     }},
    {"zip, transform and constant iterators",
     [] {
         on_device a = sent(data()), b = sent(data(5)), c(N, queue.get_context());
         compute::copy(compute::make_transform_iterator(a.begin(), _1 + 5),
                       compute::make_transform_iterator(a.end(), _1 + 5), c.begin(), queue);
         compute::transform(c.begin(), c.end(), compute::make_constant_iterator(3), c.begin(),
                            compute::multiplies<int>(), queue);
         ints v = data();
         for (int &x : v) x = (x + 5) * 3;
         return got(c) == v;
     }},
    {"counting iterator, permutation iterator",
     [] {
         on_device a(N, queue.get_context()), b = sent(data()), c(N, queue.get_context());
         compute::transform(compute::make_counting_iterator(0), compute::make_counting_iterator(static_cast<int>(N)),
                            a.begin(), static_cast<int>(N) - 1 - _1, queue);
         compute::copy(compute::make_permutation_iterator(b.begin(), a.begin()),
                       compute::make_permutation_iterator(b.end(), a.end()), c.begin(), queue);
         ints v = data();
         std::reverse(v.begin(), v.end());
         return got(c) == v;
     }},
    {"sort of chars",
     [] {
         std::string w = "a race in ten seconds", back(w.size(), ' ');
         compute::vector<char> s(w.begin(), w.end(), queue);
         compute::sort(s.begin(), s.end(), queue);
         std::sort(w.begin(), w.end());
         compute::copy(s.begin(), s.end(), back.begin(), queue);
         return back == w;
     }},
    {"a closure",
     [] {
         int by = 7;
         BOOST_COMPUTE_CLOSURE(int, scaled, (int x), (by), { return x * by; });
         on_device a = sent(data());
         compute::transform(a.begin(), a.end(), a.begin(), scaled, queue);
         ints v = data();
         for (int &x : v) x *= 7;
         return got(a) == v;
     }},
};

int main(int count, char **words) {
    size_t right = 0, tried = 0;
    std::cout << std::unitbuf;
    for (const auto &device : compute::system::devices())
        if (device.platform().name().find("Clsim") != std::string::npos)
            queue = compute::command_queue(compute::context(device), device);
    if (!queue.get()) {
        std::cerr << "Clsim isn't found\n";
        return 2;
    }
    for (const auto &use : uses) {
        if (count > 1 && std::find(words + 1, words + count, use.first) == words + count) continue;
        std::string told = "WRONG";
        try {
            if (use.second()) told = "right";
        } catch (const std::exception &error) {
            told = error.what();
        }
        tried++;
        right += told == "right";
        std::cout << use.first << ": " << told << "\n";
    }
    std::cout << right << " of " << tried << " are right\n";
    return right < tried;
}
