// The peer Eigen for the program in C: PartialPivLU with run-time sizes, over stores that are allocated once; for four pads with sizes that the
// compiler knows.
#include <Eigen/Dense>
#include <cstddef>

using Matrix = Eigen::MatrixXd;
using Factored = Eigen::PartialPivLU<Matrix>;

extern "C" void *eigen_new(std::size_t n) { return new Factored(static_cast<Eigen::Index>(n)); }

extern "C" void eigen_factor(void *e, const double *a) {
    auto *lu = static_cast<Factored *>(e);
    lu->compute(Eigen::Map<const Matrix>(a, lu->rows(), lu->cols()));
}

extern "C" void eigen_solve(void *e, const double *b, double *x) {
    const auto *lu = static_cast<const Factored *>(e);
    Eigen::Map<Eigen::VectorXd>(x, lu->rows()).noalias() = lu->solve(Eigen::Map<const Eigen::VectorXd>(b, lu->rows()));
}

extern "C" void eigen_four(const double *a, const double *b, double *x) {
    Eigen::Map<Eigen::Vector4d> solution(x);
    solution = Eigen::Matrix4d(Eigen::Map<const Eigen::Matrix4d>(a)).partialPivLu().solve(Eigen::Map<const Eigen::Vector4d>(b));
}
