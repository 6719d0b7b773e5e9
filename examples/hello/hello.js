print("pub", "hi");
