// The clock of machine.v under Verilator.
#include "Vmachine.h"
#include "verilated.h"

int main(int argc, char **argv)
{
    VerilatedContext context;
    context.commandArgs(argc, argv);
    context.traceEverOn(true);
    Vmachine machine(&context);
    machine.clock = 0;
    machine.eval();
    while (!context.gotFinish()) {
        context.timeInc(1);
        machine.clock = !machine.clock;
        machine.eval();
    }
    machine.final();
    return 0;
}
