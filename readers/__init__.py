"""Plain readers of executables, instructions, latency tables and folded blocks, on which views and checks stand."""
