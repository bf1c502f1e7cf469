// Algorithms of Boost.Compute, whose kernels it writes, on the first OpenCL device: numbers are sorted, summed and
// gathered; with the argument `wrong` one is gathered that isn't there.
#define CL_TARGET_OPENCL_VERSION 120
#include <boost/compute.hpp>
#include <iostream>

namespace compute = boost::compute;

static void print(const compute::vector<int> &numbers, compute::command_queue &queue) {
    std::vector<int> own(numbers.size());
    compute::copy(numbers.begin(), numbers.end(), own.begin(), queue);
    for (size_t i = 0; i < own.size(); i++) std::cout << (i ? " " : "") << own[i];
    std::cout << std::endl;
}

int main(int count, char **) {
    const std::vector<int> given = {5, 3, 8, 1, 9, 2, 7, 4}, at = {7, 0, count > 1 ? 8 : 3};
    compute::command_queue queue = compute::system::default_queue();
    compute::vector<int> numbers(given.begin(), given.end(), queue), places(at.begin(), at.end(), queue);
    compute::vector<int> found(at.size(), queue.get_context());
    try {
        compute::sort(numbers.begin(), numbers.end(), queue);
        print(numbers, queue);
        std::cout << "the sum is " << compute::accumulate(numbers.begin(), numbers.end(), 0, queue) << std::endl;
        compute::gather(places.begin(), places.end(), numbers.begin(), found.begin(), queue);
        print(found, queue);
    } catch (const compute::opencl_error &error) {
        std::cout << "the launch answers " << error.error_code() << "\n";
        return 1;
    }
    return 0;
}
