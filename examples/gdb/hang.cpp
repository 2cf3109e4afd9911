// A parallel program that hangs, without MPI: N processes stand for N ranks, and calls named as MPI's stand for MPI.
//
// All ranks step through a solver and meet in a barrier. One of them never leaves its own part of the grid, so all
// others wait for it. Each process has a second thread that drives communication, as MPI libraries have.
//
//     g++ -g -O0 -pthread -o hang hang.cpp
//     ./hang 8 5 > pids &          8 ranks; rank 5 is the one that is stuck
//
// It prints a line "RANK PID" for each process, and then waits. Ending it ends its ranks.
#include <atomic>
#include <csignal>
#include <cstdio>
#include <cstdlib>
#include <pthread.h>
#include <sys/mman.h>
#include <sys/prctl.h>
#include <sys/wait.h>
#include <unistd.h>

static int ranks = 8;
static int stuck = 5;
static std::atomic<int> *arrived; // how many ranks are in the barrier, shared by all processes

namespace transport {
// What a communication library does while it waits: it looks at one queue after another. A sample catches it anywhere.
__attribute__((noinline)) void poll_network() { usleep(300); }
__attribute__((noinline)) void poll_shared_memory() { usleep(300); }
__attribute__((noinline)) void progress() {
  poll_network();
  poll_shared_memory();
}
} // namespace transport

extern "C" int PMPI_Barrier() {
  ++*arrived;
  while (*arrived < ranks)
    transport::progress();
  return 0;
}

extern "C" int MPI_Barrier() {
  int result = PMPI_Barrier();
  return result;
}

namespace app {
template <typename T, int D> class Solver {
  T grid[64] = {};

  // A loop that should end and doesn't.
  void smooth(unsigned long sweeps) {
    for (volatile unsigned long i = 0; i != sweeps; i = i + 1)
      grid[i % 64] = grid[(i + D) % 64];
  }

public:
  void step(int rank) {
    if (rank == stuck)
      smooth(~0ul);
    MPI_Barrier();
  }

  void run(int rank) {
    for (int i = 0; i < 10; i++)
      step(rank);
  }
};
} // namespace app

static void *drive(void *) {
  for (;;)
    transport::progress();
}

static void be_rank(int rank) {
  prctl(PR_SET_PDEATHSIG, SIGKILL);        // end when the first process ends
  prctl(PR_SET_PTRACER, PR_SET_PTRACER_ANY); // let a debugger of the same user attach, where the system forbids it
  pthread_t thread;
  pthread_create(&thread, nullptr, drive, nullptr);
  app::Solver<double, 3> solver;
  solver.run(rank);
}

int main(int argc, char **argv) {
  if (argc > 1)
    ranks = atoi(argv[1]);
  if (argc > 2)
    stuck = atoi(argv[2]);
  void *shared = mmap(nullptr, 4096, PROT_READ | PROT_WRITE, MAP_SHARED | MAP_ANONYMOUS, -1, 0);
  arrived = static_cast<std::atomic<int> *>(shared);
  for (int rank = 0; rank < ranks; rank++) {
    pid_t pid = fork();
    if (pid == 0) {
      be_rank(rank);
      return 0;
    }
    printf("%d %d\n", rank, static_cast<int>(pid));
  }
  fflush(stdout);
  while (wait(nullptr) > 0)
    ;
}
