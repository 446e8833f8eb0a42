/* Where firmware and monitor meet: addresses, ports, and what the firmware stops with. */
#ifndef PORTS_H
#define PORTS_H
#define MEMORY 0x10000		/* the machine's memory, from guest address 0 on, */
#define HIGH 0x140000000ull	/* and from here on once more, where the device alone gets */
#define FIRMWARE 0x1000		/* the firmware's first byte, where the processor begins */
#define STACK 0xfff0
#define REGISTERS 0xd0000	/* of the device: 512 bytes */

#define PORT_RANDOM 0x10	/* read: 32 random bits */
#define PORT_LEAST 0x14		/* read: the counter that the last boots told, at least */
#define PORT_COUNTER 0x20	/* write: the counter, as it was found */
#define PORT_WROTE 0x24		/* write: the counter behind a write whose answer was right */
#define PORT_BOOTS 0x28		/* write: the boot count that was read back */
#define PORT_ERROR 0x2c		/* write: one of these, and the machine stops */

enum { NO_DEVICE = 1, NO_ANSWER, WRONG_MAC, WRONG_NONCE, WRONG_TYPE, REFUSED, COUNTER_WENT_BACK,
       TORN_BLOCKS, OTHER_BLOCKS };
#endif
