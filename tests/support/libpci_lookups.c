/* What libpci answers to look-ups in a file of names. Each line of standard input is flags, vendor,
   device, subvendor, subdevice, class, programming interface and the size of the buffer: all in hex
   but the size. Answers are printed as a script of pciids prints them. */
#include <pci/pci.h>
#include <stdio.h>
#include <stdlib.h>

static void say_nothing(char *format, ...)
{
    (void)format;
}

int main(int argc, char **argv)
{
    unsigned flags, vendor, device, subvendor, subdevice, class, progif;
    int size;
    struct pci_access *access = pci_alloc();
    if (argc != 2)
        return 2;
    /* pci_init would set these, but looks for the bus too. */
    access->warning = access->debug = say_nothing;
    pci_set_name_list_path(access, argv[1], 0);
    if (!pci_load_name_list(access))
        return 1;
    while (scanf("%x %x %x %x %x %x %x %d", &flags, &vendor, &device, &subvendor, &subdevice,
                 &class, &progif, &size) == 8) {
        char *buffer = malloc(size + 1), *text;
        /* The names of the file alone: those of the system's hardware database are left out. */
        int asked = flags | PCI_LOOKUP_NO_HWDB;
        switch (flags & 0xffff) {
        case PCI_LOOKUP_SUBSYSTEM | PCI_LOOKUP_VENDOR:
            text = pci_lookup_name(access, buffer, size, asked, subvendor);
            break;
        case PCI_LOOKUP_CLASS:
            text = pci_lookup_name(access, buffer, size, asked, class);
            break;
        case PCI_LOOKUP_PROGIF:
            text = pci_lookup_name(access, buffer, size, asked, class, progif);
            break;
        default:
            text = pci_lookup_name(access, buffer, size, asked, vendor, device, subvendor,
                                   subdevice);
        }
        if (text)
            printf("text %s\n", text);
        else
            puts("none");
        free(buffer);
    }
    return 0;
}
