/* The sizes and places of the header's structs, which the library's own must have. */
#include "dillmonth.h"
#include <stdio.h>

#define SIZE(type, size) _Static_assert(sizeof(type) == (size), #type " has another size")
#define AT(type, field, place) _Static_assert(offsetof(type, field) == (place), #type "." #field " is elsewhere")

SIZE(dm_world, 8);
SIZE(dm_frame, 8);
SIZE(dm_vec, 16);
SIZE(dm_rot, 16);
SIZE(dm_handle, 8);
SIZE(dm_shape_id, 8);
SIZE(dm_pair, 16);
SIZE(dm_box, 32);
SIZE(dm_shape, 80);
AT(dm_shape, first, 8); AT(dm_shape, second, 24); AT(dm_shape, radius, 40); AT(dm_shape, friction, 48); AT(dm_shape, category, 64); AT(dm_shape, mask, 72);
SIZE(dm_body_def, 80);
AT(dm_body_def, at, 8); AT(dm_body_def, facing, 24); AT(dm_body_def, mass, 40); AT(dm_body_def, inertia, 48); AT(dm_body_def, velocity, 56); AT(dm_body_def, spin, 72);
SIZE(dm_joint_def, 64);
AT(dm_joint_def, from, 16); AT(dm_joint_def, to, 32); AT(dm_joint_def, length, 48); AT(dm_joint_def, collide, 56);
SIZE(dm_pose, 40);
AT(dm_pose, at, 8); AT(dm_pose, facing, 24);
SIZE(dm_view, 112);
AT(dm_view, p, 40); AT(dm_view, l_low, 56); AT(dm_view, velocity, 72); AT(dm_view, spin, 88); AT(dm_view, set, 96); AT(dm_view, island, 100); AT(dm_view, tag, 104);
SIZE(dm_course, 24);
AT(dm_course, spin, 16);
SIZE(dm_contact_point, 40);
AT(dm_contact_point, separation, 16); AT(dm_contact_point, normal_impulse, 24); AT(dm_contact_point, tangent_impulse, 32);
SIZE(dm_contact, 120);
AT(dm_contact, points, 16); AT(dm_contact, normal, 24); AT(dm_contact, first, 40); AT(dm_contact, second, 80);
SIZE(dm_event, 168);
AT(dm_event, kind, 8); AT(dm_event, first, 16); AT(dm_event, second, 24); AT(dm_event, first_tag, 32); AT(dm_event, second_tag, 40); AT(dm_event, contact, 48);
SIZE(dm_hit, 16);
SIZE(dm_shape_hit, 40); AT(dm_shape_hit, point, 8); AT(dm_shape_hit, normal, 24);
SIZE(dm_command, 200);
AT(dm_command, body, 16); AT(dm_command, joint, 96); AT(dm_command, by, 160); AT(dm_command, ticks, 192);
SIZE(dm_answer, 24);
AT(dm_answer, made, 8); AT(dm_answer, step, 16);
SIZE(dm_body_info, 40);
AT(dm_body_info, mass, 8); AT(dm_body_info, inertia, 16); AT(dm_body_info, shapes, 24); AT(dm_body_info, island, 32);
SIZE(dm_joint_view, 80);
AT(dm_joint_view, impulse, 64); AT(dm_joint_view, colour, 72);
SIZE(dm_counts, 56);
AT(dm_counts, joints, 16); AT(dm_counts, touching, 32); AT(dm_counts, colours, 48);
SIZE(dm_sum, 32);
AT(dm_sum, x_high, 8); AT(dm_sum, y_low, 16);
SIZE(dm_filter, 24);
AT(dm_filter, mask, 8); AT(dm_filter, by_mask, 16);

int main(void) {
  puts("the structs lie as the library has them");
  return 0;
}
