// MPI programs that hang, in one executable, as tools/check-cluster starts them.
//
//     hangs NAME K         rank K is the one that is different; NAME is a name of the table at the end
//
// Each rank prints a line once MPI is initialized. There are templates, lambdas, operators and names that are not ASCII, since
// stacks of real programs have them.
#include <mpi.h>
#include <csignal>
#include <cstdio>
#include <cstdlib>
#include <functional>
#include <map>
#include <string>
#include <unistd.h>
#include <vector>
#ifdef _OPENMP
#include <omp.h>
#endif

static int me, ranks, different;

static void wait_for_ever() {
  for (;;)
    pause();
}

namespace app {
template <typename T, int D> struct Grid {
  std::vector<T> cells = std::vector<T>(1024, T(1));
  __attribute__((noinline)) T relax(unsigned long sweeps) {
    volatile T sum = 0;
    for (volatile unsigned long i = 0; i != sweeps; i = i + 1)
      sum = sum + cells[(i * D) % cells.size()];
    return sum;
  }
};

template <typename F> __attribute__((noinline)) void each_step(int steps, F &&step) {
  for (int i = 0; i < steps; i++)
    step(i);
}
} // namespace app

static void sum_up() {
  double mine = me, all;
  MPI_Allreduce(&mine, &all, 1, MPI_DOUBLE, MPI_SUM, MPI_COMM_WORLD);
}

// One rank skips a barrier, and waits in the next collective.
static void barrier() {
  app::each_step(3, [](int i) {
    if (me != different || i != 1)
      MPI_Barrier(MPI_COMM_WORLD);
    sum_up();
  });
}

// One rank waits for a message that nobody sends.
static void receive() {
  app::each_step(2, [](int i) {
    int word;
    if (me == different && i == 1)
      MPI_Recv(&word, 1, MPI_INT, (me + 1) % ranks, 99, MPI_COMM_WORLD, MPI_STATUS_IGNORE);
    MPI_Barrier(MPI_COMM_WORLD);
  });
}

// Every fourth rank reduces where all others broadcast.
static void mismatch() {
  double mine = me, all = 0;
  if (me % 4 == 3)
    MPI_Reduce(&mine, &all, 1, MPI_DOUBLE, MPI_SUM, 0, MPI_COMM_WORLD);
  else
    MPI_Bcast(&mine, 1, MPI_DOUBLE, 3, MPI_COMM_WORLD);
  MPI_Barrier(MPI_COMM_WORLD);
}

// One rank never leaves a loop.
static void loop() {
  app::Grid<double, 7> grid;
  std::function<void(int)> body = [&](int i) {
    grid.relax(me == different && i == 1 ? ~0ul : 10);
    sum_up();
  };
  app::each_step(5, body);
}

// Two ranks send each other more than fits on the way.
static void send() {
  std::vector<char> mine(8 << 20), its(8 << 20);
  if (me == different || me == different + 1) {
    int other = me == different ? different + 1 : different;
    MPI_Send(mine.data(), mine.size(), MPI_CHAR, other, 5, MPI_COMM_WORLD);
    MPI_Recv(its.data(), its.size(), MPI_CHAR, other, 5, MPI_COMM_WORLD, MPI_STATUS_IGNORE);
  }
  MPI_Barrier(MPI_COMM_WORLD);
}

// One thread of one rank never leaves a loop, and its team waits for it.
static void openmp() {
  app::Grid<float, 3> grid;
#pragma omp parallel num_threads(3)
  {
    int thread = 0;
#ifdef _OPENMP
    thread = omp_get_thread_num();
#endif
    if (me == different && thread == 2)
      grid.relax(~0ul);
  }
  MPI_Barrier(MPI_COMM_WORLD);
}

// A handler keeps a rank that crashed.
static void crash() {
  signal(SIGSEGV, [](int) { wait_for_ever(); });
  volatile int *nowhere = reinterpret_cast<int *>(8);
  if (me == different)
    *nowhere = 1;
  MPI_Barrier(MPI_COMM_WORLD);
}

// A rank was stopped by a signal.
static void stopped() {
  if (me == different)
    raise(SIGSTOP);
  MPI_Barrier(MPI_COMM_WORLD);
}

// A rank has ended. The launcher must be one that goes on.
static void gone() {
  if (me == different)
    _exit(0);
  MPI_Barrier(MPI_COMM_WORLD);
}

// A rank waits in the kernel, in state D, where no debugger can stop it: its child has its memory, and doesn't end.
static void kernel() {
  if (me == different && vfork() == 0)
    wait_for_ever();
  MPI_Barrier(MPI_COMM_WORLD);
}

// All ranks wait 400 calls deep.
__attribute__((noinline)) static int deeper(int calls) {
  if (calls == 0) {
    if (me == different)
      wait_for_ever();
    MPI_Barrier(MPI_COMM_WORLD);
    return 0;
  }
  int below = deeper(calls - 1);
  asm volatile("" ::: "memory");
  return below + 1;
}

// The same with calls that are all different, so that the stack stays as deep.
template <int N> __attribute__((noinline)) int level() {
  int below = 0;
  if constexpr (N > 0)
    below = level<N - 1>();
  else if (me == different)
    wait_for_ever();
  else
    MPI_Barrier(MPI_COMM_WORLD);
  asm volatile("" ::: "memory");
  return below + 1;
}

// One rank computes, its neighbours wait for it, theirs for them; those that are far away are in the reduction already.
static void halo() {
  app::Grid<double, 5> grid;
  int left = (me + ranks - 1) % ranks, right = (me + 1) % ranks;
  for (int i = 0; i < 1000; i++) {
    if (me == different && i == 3)
      grid.relax(~0ul);
    double mine[2] = {1, 2}, its[2];
    MPI_Request all[4];
    MPI_Irecv(&its[0], 1, MPI_DOUBLE, left, 1, MPI_COMM_WORLD, &all[0]);
    MPI_Irecv(&its[1], 1, MPI_DOUBLE, right, 2, MPI_COMM_WORLD, &all[1]);
    MPI_Isend(&mine[0], 1, MPI_DOUBLE, right, 1, MPI_COMM_WORLD, &all[2]);
    MPI_Isend(&mine[1], 1, MPI_DOUBLE, left, 2, MPI_COMM_WORLD, &all[3]);
    MPI_Waitall(4, all, MPI_STATUSES_IGNORE);
    if (i % 10 == 9)
      sum_up();
  }
}

// A semicolon, blanks, and letters that aren't ASCII in names.
struct Größe {
  __attribute__((noinline)) void warte_für_immer() {
    if (me == different)
      wait_for_ever();
    MPI_Barrier(MPI_COMM_WORLD);
  }
};

struct Odd {
  template <char C> __attribute__((noinline)) void at() {
    Größe().warte_für_immer();
    asm volatile("" ::: "memory");
  }
  __attribute__((noinline)) bool operator<<(int) {
    at<';'>();
    asm volatile("" ::: "memory");
    return true;
  }
  __attribute__((noinline)) void operator()(const std::map<std::string, std::vector<int>> &) {
    *this << 3;
    asm volatile("" ::: "memory");
  }
};

static void odd() { Odd()(std::map<std::string, std::vector<int>>()); }

// A wait that is the program's own: a loop around MPI_Test, in which a sample catches a rank anywhere.
namespace app {
__attribute__((noinline)) void wait_for(MPI_Request *request) {
  Grid<double, 2> grid;
  for (int done = 0; !done; usleep(100)) {
    MPI_Test(request, &done, MPI_STATUS_IGNORE);
    grid.relax(2000);
  }
}
} // namespace app

static void test() {
  if (me == different)
    wait_for_ever();
  MPI_Request request;
  MPI_Ibarrier(MPI_COMM_WORLD, &request);
  app::wait_for(&request);
}

int main(int argc, char **argv) {
  const std::map<std::string, void (*)()> table = {
      {"barrier", barrier}, {"receive", receive}, {"mismatch", mismatch}, {"loop", loop}, {"send", send},
      {"openmp", openmp}, {"crash", crash}, {"stopped", stopped}, {"gone", gone}, {"kernel", kernel},
      {"deep", [] { deeper(400); }}, {"levels", [] { level<200>(); }}, {"halo", halo}, {"odd", odd}, {"test", test}};
  if (argc != 3 || table.count(argv[1]) == 0) {
    fprintf(stderr, "usage: hangs NAME K\n");
    return 2;
  }
  different = atoi(argv[2]);
  MPI_Init(&argc, &argv);
  MPI_Comm_rank(MPI_COMM_WORLD, &me);
  MPI_Comm_size(MPI_COMM_WORLD, &ranks);
  printf("rank %d\n", me);
  fflush(stdout);
  table.at(argv[1])();
  MPI_Finalize();
}
