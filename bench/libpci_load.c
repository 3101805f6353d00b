/* Loads a file of names as libpci does, in a process of its own: the yardstick of `check` in
   bench/run. */
#include <pci/pci.h>

int main(int argc, char **argv)
{
    struct pci_access *access = pci_alloc();
    if (argc != 2)
        return 2;
    pci_set_name_list_path(access, argv[1], 0);
    return pci_load_name_list(access) ? 0 : 1;
}
