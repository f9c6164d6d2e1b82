"""What ./test and tools/build do. tests/scripts has its tests."""
